/* Batches as files, and what the checks answer in words, for mpl_shim and mpl_feed. */
#ifndef BATCH_H
#define BATCH_H

#include "files.h"
#include "mpl.h"

/* More than any batch that is accepted, so that it is the library that refuses a long one. */
enum { FILE_BYTES_MOST = 1 << 20 };

enum { USUAL_CAPACITY = 2048 };

/* A file of dwords. */
bool read_words(const char *path, struct buffer *file);

/* A dash alone is a file's name. */
bool is_option(const char *argument);

/* The decimal number, at most `most`, that a text begins with, and what follows it. */
bool take_number(const char *text, uint32_t most, uint32_t *number, const char **rest);

/* A text that is such a number and nothing else. */
bool read_number(const char *text, uint32_t most, uint32_t *number);

/* What a number but 0 means, and what its place is. */
struct meaning {
    uint64_t number;
    const char *words, *place;
};

const struct meaning *meaning_of(uint64_t number);

/* Without the end of the line. */
void print_refused(const char *check, uint64_t number, uint64_t place, const struct meaning *meaning);

void print_batch(const struct mpl_batch *batch);

#endif
