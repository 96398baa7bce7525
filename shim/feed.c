/*
 * The batch check in parts, as a program: hands a batch over chunk by chunk, as a driver does that gets its ring in parts, and says what
 * the check answers, in the words of mpl_shim.
 * Exit status: 0 accepted; 1 refused; 2 not asked, or what was answered not written, and standard error says why.
 */
#include <inttypes.h>
#include <stdio.h>
#include <stdlib.h>
#include <string.h>

#include "batch.h"
#include "files.h"
#include "mpl.h"

/* No file has more dwords. */
enum { SIZE_MOST = FILE_BYTES_MOST / 4 };

const char program[] = "mpl_feed";
const char usage[] = "usage: mpl_feed [-6] [-v] [-r RECORDS] SIZES BATCH [CAPACITY]\n"
                     "-6: the chip is Gen6, else it is Gen7; -v: also print what each call says\n"
                     "-r RECORDS: lend room for so many, 0 to 16384 (16384)\n"
                     "SIZES: dwords of each chunk: 64; or of one after the other: 8,0,64, where the last goes for all that follow\n"
                     "BATCH: a file of little-endian dwords, at most 1 MiB; CAPACITY: of the URB, in 256-bit rows (2048)\n";
const char statuses[] = "exit status: 0 accepted; 1 refused; 2 not asked, or the answer not written: standard error says why\n";

struct asked {
    uint32_t chip, capacity, records;
    bool each;
    const char *sizes, *batch;
};

struct lent {
    struct buffer batch, records;
};

/* Who gets a batch in parts lends the records before its length is known. */
static bool make_lent(struct lent *lent, const struct asked *asked)
{
    return read_words(asked->batch, &lent->batch) && allocate(&lent->records, asked->records * MPL_RECORD_BYTES);
}

static void free_lent(struct lent *lent)
{
    free(lent->batch.bytes);
    free(lent->records.bytes);
}

/* malloc has aligned it, and x86-64 is little-endian, as the file is. */
static uint32_t *words_of(const struct buffer *buffer)
{
    return (uint32_t *)(void *)buffer->bytes;
}

/* In memory of its own, so that valgrind sees a step outside it, and one back to it in a later call. */
static bool cut(struct buffer *chunk, const struct buffer *batch, size_t from, size_t dwords)
{
    if (!allocate(chunk, 4 * dwords))
        return false;
    if (dwords > 0) /* memcpy takes no null */
        memcpy(chunk->bytes, batch->bytes + 4 * from, chunk->len);
    return true;
}

/* The list's first size. The list goes on after it, unless it is the last. */
static size_t next_size(const char **sizes)
{
    uint32_t size;
    const char *rest;
    (void)take_number(*sizes, SIZE_MOST, &size, &rest);
    if (*rest == ',')
        *sizes = rest + 1;
    return size;
}

/* Calls before the last say "more", whatever they met: what that was, the carried state shows. */
static void print_call(size_t chunk, size_t dwords, const struct mpl_fed *fed)
{
    const struct mpl_carried *carried = &fed->carried;
    const char *says = fed->more != 0 ? "more" : "answer";
    printf("chunk %zu: %zu dwords: %s; %" PRIu32 " commands passed, ", chunk, dwords, says, carried->commands);
    if (carried->stop == 0)
        printf("the next at %" PRIu32 ", %" PRIu32 " dwords of it have come\n", carried->place, carried->got);
    else if (carried->stop == MPL_STOP_END)
        printf("END among them, %" PRIu32 " dwords read\n", carried->place);
    else
        printf("then number %" PRIu32 ", place %" PRIu32 "\n", carried->stop, carried->place);
}

/* From a fresh carried state to the answer: the chunk with the batch's last dword is the last, and a batch of none is one empty chunk. */
static bool feed(const struct asked *asked, const struct lent *lent, struct mpl_fed *fed)
{
    struct mpl_carried carried = {0};
    const char *sizes = asked->sizes;
    size_t dwords = lent->batch.len / 4, from = 0, chunks = 0;
    do {
        size_t size = next_size(&sizes), left = dwords - from, len = size < left ? size : left;
        struct buffer chunk;
        if (!cut(&chunk, &lent->batch, from, len))
            return false;
        from += len;
        *fed = mpl_feed(asked->chip, carried, words_of(&chunk), len, from == dwords, asked->capacity, words_of(&lent->records),
                        lent->records.len / 4);
        free(chunk.bytes);
        carried = fed->carried;
        if (asked->each)
            print_call(chunks++, len, fed);
    } while (fed->more != 0);
    return true;
}

/* A ring is cut at dwords, and mpl_feed has no 17: a part of a dword is the file's own fault, and of such a file nothing is handed over. */
static int ask(const struct asked *asked, const struct lent *lent)
{
    struct mpl_fed fed = {.number = MPL_PART_OF_A_DWORD, .place = lent->batch.len / 4};
    if (lent->batch.len % 4 == 0 && !feed(asked, lent, &fed))
        return FAILED;
    print_batch(&(struct mpl_batch){fed.number, fed.place, fed.commands, fed.dwords});
    return printed(fed.number == MPL_ACCEPTED ? DONE : REFUSED);
}

/* After a last size of 0 the batch would have no end. */
static bool are_sizes(const char *list)
{
    uint32_t size;
    const char *rest;
    while (take_number(list, SIZE_MOST, &size, &rest)) {
        if (*rest != ',')
            return *rest == '\0' && size > 0;
        list = rest + 1;
    }
    return false;
}

/* The place of the first argument after the options, or 0 where one is wrong. */
static int read_options(int argc, char **argv, struct asked *asked)
{
    int i = 1;
    for (; i < argc && is_option(argv[i]); i++) {
        if (strcmp(argv[i], "-6") == 0)
            asked->chip = MPL_GEN6;
        else if (strcmp(argv[i], "-v") == 0)
            asked->each = true;
        else if (strcmp(argv[i], "-r") != 0)
            return complain(argv[i], "not an option before SIZES");
        else if (++i == argc)
            return complain("-r", "without RECORDS");
        else if (!read_number(argv[i], MPL_BATCH_DWORDS_MOST, &asked->records))
            return complain(argv[i], "RECORDS is a number from 0 to 16384");
    }
    return i;
}

/* After SIZES a file's name may begin with a dash. */
static bool read_arguments(int argc, char **argv, struct asked *asked)
{
    int first = read_options(argc, argv, asked), given = argc - first;
    if (first == 0 || given < 2 || given > 3)
        return false;
    asked->sizes = argv[first];
    asked->batch = argv[first + 1];
    if (!are_sizes(asked->sizes))
        return complain(asked->sizes, "each size is a number from 0 to 262144, the last not 0");
    if (given == 3 && !read_number(argv[first + 2], UINT32_MAX, &asked->capacity))
        return complain(argv[first + 2], "CAPACITY is a number from 0 to 4294967295");
    return true;
}

int main(int argc, char **argv)
{
    if (asks_for_help(argc, argv))
        return give_help();
    struct asked asked = {.chip = MPL_GEN7, .capacity = USUAL_CAPACITY, .records = MPL_BATCH_DWORDS_MOST};
    if (!read_arguments(argc, argv, &asked)) {
        fputs(usage, stderr);
        return FAILED;
    }
    struct lent lent = {0};
    int status = make_lent(&lent, &asked) ? ask(&asked, &lent) : FAILED;
    free_lent(&lent);
    return status;
}
