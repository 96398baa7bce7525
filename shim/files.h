/* Files, standard output and lent memory, for the programs of this folder. */
#ifndef FILES_H
#define FILES_H

#include <stdbool.h>
#include <stddef.h>
#include <stdint.h>

/* Each program's own: the name that complaints begin with, how it is called, and what its exit status tells. */
extern const char program[], usage[], statuses[];

/* Exit status of every program. FAILED: not asked, or what it answered not written, and standard error says why. */
enum { DONE = 0, REFUSED = 1, FAILED = 2 };

struct buffer {
    uint8_t *bytes;
    size_t len;
};

/* Says on standard error what went wrong, and answers false for the caller to hand on. */
bool complain(const char *what, const char *why);

/* --help alone is a question. */
bool asks_for_help(int argc, char **argv);
int give_help(void);

/* Closes standard output, and answers the status, or FAILED where a part is lost: what is left would pass for the whole. */
int printed(int status);

/*
 * Exactly len bytes, so that valgrind sees a step outside them; not cleared, so that it sees one used before it is set. With length 0 the
 * pointer is null, as mpl.h permits.
 */
bool allocate(struct buffer *buffer, size_t len);

/* The file's bytes, but no more than `most` of them. Where it answers false, `file` has no new memory to free. */
bool read_file(const char *path, size_t most, struct buffer *file);

/*
 * Only where there is no such file yet: none is overwritten, and no device is written to. It is its owner's alone, whatever the umask.
 * Where it answers false, it has left none.
 */
bool write_new_file(const char *path, const struct buffer *buffer);

#endif
