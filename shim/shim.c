/*
 * The shim as a program: names the chip, lends buffers, asks both checks about a batch and a run, and says what their numbers and places
 * mean.
 * Exit status: 0 both accept; 1 one refuses; 2 they were not asked, or what they answered not written, and standard error says why.
 */
#include <inttypes.h>
#include <stdio.h>
#include <stdlib.h>
#include <string.h>

#include "batch.h"
#include "files.h"
#include "mpl.h"

const char program[] = "mpl_shim";
const char usage[] = "usage: mpl_shim [-6] BATCH RUN [CAPACITY]\n"
                     "-6: the chip is Gen6, else it is Gen7\n"
                     "BATCH, RUN: files of little-endian dwords, at most 1 MiB; CAPACITY: of the URB, in 256-bit rows (2048)\n";
const char statuses[] = "exit status: 0 both checks accept; 1 one refuses; 2 not asked, or answers not written: standard error says why\n";

/* 17 is the one number that two files can have. */
static const struct meaning part_of_run = {MPL_PART_OF_A_DWORD, "run not a multiple of 4 bytes", "its whole dwords"};

struct lent {
    struct buffer batch, run, records, states;
};

/* A command is a dword or more, so a record and a state byte to each dword is room for all; a batch over the most needs none. */
static bool make_lent(struct lent *lent, const char *batch_path, const char *run_path)
{
    if (!read_words(batch_path, &lent->batch) || !read_words(run_path, &lent->run))
        return false;
    size_t room = lent->batch.len / 4;
    if (room > MPL_BATCH_DWORDS_MOST)
        room = MPL_BATCH_DWORDS_MOST;
    return allocate(&lent->records, room * MPL_RECORD_BYTES) && allocate(&lent->states, room);
}

static void free_lent(struct lent *lent)
{
    free(lent->batch.bytes);
    free(lent->run.bytes);
    free(lent->records.bytes);
    free(lent->states.bytes);
}

/* The order check asks after a part of a dword in the batch, then in the run: where the batch has none, 17 is the run's. */
static void print_order(const struct mpl_order *order, bool batch_is_whole)
{
    if (order->number == MPL_ACCEPTED)
        printf("order: number 0, place %" PRIu64 ": accepted; place: the run's events", order->place);
    else if (order->number == MPL_PART_OF_A_DWORD && batch_is_whole)
        print_refused("order", order->number, order->place, &part_of_run);
    else
        print_refused("order", order->number, order->place, meaning_of(order->number));
    if (order->number == MPL_STALLS)
        printf("; names object %" PRIu64, order->object);
    if (order->number == MPL_WAITS)
        printf("; names object %" PRIu64 ", delta %" PRIu64, order->object, order->delta);
    putchar('\n');
}

/* A record's kind is its first word, little-endian. */
static uint32_t kind_of(const uint8_t *record)
{
    const uint8_t *word = record + 4 * MPL_WORD_KIND;
    return (uint32_t)word[0] | (uint32_t)word[1] << 8 | (uint32_t)word[2] << 16 | (uint32_t)word[3] << 24;
}

static size_t objects_in(const uint8_t *records, size_t commands)
{
    size_t objects = 0;
    for (size_t i = 0; i < commands; i++)
        if (kind_of(records + i * MPL_RECORD_BYTES) == MPL_OBJECT)
            objects++;
    return objects;
}

static size_t in_state(const uint8_t *states, size_t objects, uint8_t state)
{
    size_t n = 0;
    for (size_t k = 0; k < objects; k++)
        if (states[k] == state)
            n++;
    return n;
}

/* Of the bytes lent only those of the objects were set. */
static void print_states(const struct lent *lent, size_t commands)
{
    const uint8_t *states = lent->states.bytes;
    size_t objects = objects_in(lent->records.bytes, commands);
    printf("objects: %zu waiting, %zu running, %zu finished\n", in_state(states, objects, MPL_WAITING),
           in_state(states, objects, MPL_RUNNING), in_state(states, objects, MPL_FINISHED));
}

/* On any other number the order check has set no record and no state. */
static bool run_was_begun(uint64_t number)
{
    return number == MPL_ACCEPTED || (number >= MPL_NO_SUCH_OBJECT && number <= MPL_WAITS);
}

static int ask(uint32_t chip, const struct lent *lent, uint32_t capacity)
{
    struct mpl_batch batch =
        mpl_check_batch(chip, lent->batch.bytes, lent->batch.len, capacity, lent->records.bytes, lent->records.len);
    print_batch(&batch);
    struct mpl_order order =
        mpl_check_order(chip, lent->batch.bytes, lent->batch.len, capacity, lent->run.bytes, lent->run.len,
                        lent->records.bytes, lent->records.len, lent->states.bytes, lent->states.len);
    print_order(&order, batch.number != MPL_PART_OF_A_DWORD);
    if (run_was_begun(order.number))
        print_states(lent, batch.commands);
    return printed(batch.number == MPL_ACCEPTED && order.number == MPL_ACCEPTED ? DONE : REFUSED);
}

struct asked {
    uint32_t chip, capacity;
    const char *batch, *run;
};

/* -6 is the only option. A file whose name begins with a dash is given as ./-name. */
static bool read_arguments(int argc, char **argv, struct asked *asked)
{
    bool option = argc > 1 && is_option(argv[1]);
    if (option && strcmp(argv[1], "-6") != 0)
        return complain(argv[1], "not an option before BATCH");
    int first = option ? 2 : 1;
    int given = argc - first;
    if (given < 2 || given > 3)
        return false;
    asked->chip = option ? MPL_GEN6 : MPL_GEN7;
    asked->batch = argv[first];
    asked->run = argv[first + 1];
    return given == 2 || read_number(argv[first + 2], UINT32_MAX, &asked->capacity);
}

int main(int argc, char **argv)
{
    if (asks_for_help(argc, argv))
        return give_help();
    struct asked asked = {.capacity = USUAL_CAPACITY};
    if (!read_arguments(argc, argv, &asked)) {
        fputs(usage, stderr);
        return FAILED;
    }
    struct lent lent = {0};
    int status = make_lent(&lent, asked.batch, asked.run) ? ask(asked.chip, &lent, asked.capacity) : FAILED;
    free_lent(&lent);
    return status;
}
