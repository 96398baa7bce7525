/*
 * Calls for shim/test that no other program makes: every entry of both checks with chips that there are not, whatever else it would have
 * refused, and the records of a Gen6 batch, word by word. Of mpl_feed also: every cut of that batch in two places, what it says after an
 * answer, a chip that changes from call to call, and carried states that no call returned.
 * Exit status: 0 every answer is the one due; 1 one is not, and is printed; 2 not asked or not written, and standard error says why.
 */
#include <inttypes.h>
#include <stdio.h>
#include <stdlib.h>
#include <string.h>

#include "files.h"
#include "mpl.h"

const char program[] = "mpl_calls";
const char usage[] = "usage: mpl_calls\nasks the library what no other program asks, and prints the records of a Gen6 batch\n";
const char statuses[] = "exit status: 0 all as due; 1 an answer is not; 2 not asked or not written: standard error says why\n";

enum { PAINT = 0xa5, CAPACITY = 2048, ROOM = 8 * MPL_RECORD_BYTES };
enum { BATCH, RUN, RECORDS, STATES, BUFFERS };

/* What Gen7 would refuse in it: 6 at dword 2 (a stack size on Gen6), 3 at dword 9, 6 at dword 17 (reserved on Gen6, not must-be-zero). */
static const uint32_t gen6_batch[] = {
    0x00000000,                                                                   /* no-op */
    0x70000006, 0x000000b0, 0x00070140, 0, 0x00020004, 0xc0000003, 0x0000f00f, 0, /* VFE */
    0x70030000, 0x00030201,                                                       /* gateway state */
    0x70020002, 0, 32, 0x1000,                                                    /* descriptor load */
    0x71000004, 0, 0x81280040, 0x1000, 0x00050009, 0x00030007,                    /* OBJECT */
    0x70030000, 0x00ffffff,                                                       /* gateway state, every bit that may be set */
    0x05000000,                                                                   /* END */
};
static const uint32_t whole_run[] = {0, 1};

enum { WHOLE = sizeof gen6_batch, EVENTS = sizeof whole_run, MOST = 4 * MPL_BATCH_DWORDS_MOST };

/* Bytes lent, and what the byte entries answer on Gen6: the number that 18 stands before. */
static const struct input {
    size_t bytes[BUFFERS];
    uint64_t batch_number, order_number;
} inputs[] = {
    {{WHOLE, EVENTS, ROOM, 2}, MPL_ACCEPTED, MPL_ACCEPTED},
    {{0, 0, 0, 0}, MPL_NO_END, MPL_NO_END},
    {{MOST + 4, EVENTS, ROOM, 2}, MPL_TOO_LONG, MPL_TOO_LONG},
    {{WHOLE - 4, EVENTS, ROOM, 2}, MPL_NO_END, MPL_NO_END},
    {{WHOLE, EVENTS, 7 * MPL_RECORD_BYTES - 1, 2}, MPL_RECORD_ROOM, MPL_RECORD_ROOM},
    {{WHOLE - 2, EVENTS, ROOM, 2}, MPL_PART_OF_A_DWORD, MPL_PART_OF_A_DWORD},
    {{MOST + 5, 1, ROOM, 2}, MPL_PART_OF_A_DWORD, MPL_PART_OF_A_DWORD},
    {{WHOLE, EVENTS - 1, ROOM, 2}, MPL_ACCEPTED, MPL_PART_OF_A_DWORD},
    {{WHOLE, EVENTS, ROOM, 0}, MPL_ACCEPTED, MPL_FEW_STATES},
};

/* Byte i of a buffer as it is lent: a batch is the one above, then zeros. */
static uint8_t lent_as(size_t buffer, size_t i)
{
    if (buffer == BATCH)
        return i < sizeof gen6_batch ? ((const uint8_t *)gen6_batch)[i] : 0;
    return buffer == RUN ? ((const uint8_t *)whole_run)[i] : PAINT;
}

static bool make_lent(struct buffer *lent, const struct input *input)
{
    for (size_t b = 0; b < BUFFERS; b++) {
        if (!allocate(&lent[b], input->bytes[b]))
            return false;
        for (size_t i = 0; i < lent[b].len; i++)
            lent[b].bytes[i] = lent_as(b, i);
    }
    return true;
}

static bool is_unchanged(const struct buffer *lent)
{
    for (size_t b = 0; b < BUFFERS; b++)
        for (size_t i = 0; i < lent[b].len; i++)
            if (lent[b].bytes[i] != lent_as(b, i))
                return false;
    return true;
}

static void free_lent(struct buffer *lent)
{
    for (size_t b = 0; b < BUFFERS; b++)
        free(lent[b].bytes);
}

/* malloc has aligned it. */
static uint32_t *words_of(const struct buffer *buffer)
{
    return (uint32_t *)(void *)buffer->bytes;
}

/* Of either check: number and place, then commands and dwords, or object and delta. */
struct answer {
    uint64_t number, place, third, fourth;
};

static struct answer ask_batch(uint32_t chip, const struct buffer *lent)
{
    struct mpl_batch batch =
        mpl_check_batch(chip, lent[BATCH].bytes, lent[BATCH].len, CAPACITY, lent[RECORDS].bytes, lent[RECORDS].len);
    return (struct answer){batch.number, batch.place, batch.commands, batch.dwords};
}

static struct answer ask_batch_dwords(uint32_t chip, const struct buffer *lent)
{
    struct mpl_batch batch = mpl_check_batch_dwords(chip, words_of(&lent[BATCH]), lent[BATCH].len / 4, CAPACITY,
                                                    words_of(&lent[RECORDS]), lent[RECORDS].len / 4);
    return (struct answer){batch.number, batch.place, batch.commands, batch.dwords};
}

static struct answer ask_order(uint32_t chip, const struct buffer *lent)
{
    struct mpl_order order = mpl_check_order(chip, lent[BATCH].bytes, lent[BATCH].len, CAPACITY, lent[RUN].bytes, lent[RUN].len,
                                             lent[RECORDS].bytes, lent[RECORDS].len, lent[STATES].bytes, lent[STATES].len);
    return (struct answer){order.number, order.place, order.object, order.delta};
}

static struct answer ask_order_dwords(uint32_t chip, const struct buffer *lent)
{
    struct mpl_order order =
        mpl_check_order_dwords(chip, words_of(&lent[BATCH]), lent[BATCH].len / 4, CAPACITY, words_of(&lent[RUN]), lent[RUN].len / 4,
                               words_of(&lent[RECORDS]), lent[RECORDS].len / 4, lent[STATES].bytes, lent[STATES].len);
    return (struct answer){order.number, order.place, order.object, order.delta};
}

/* "more", and no answer with it. */
static bool says_more(const struct mpl_fed *fed)
{
    return fed->more == 1 && fed->number == 0 && fed->place == 0 && fed->commands == 0 && fed->dwords == 0;
}

/* A chunk of no dwords is a null pointer. */
static const uint32_t *chunk_at(const struct buffer *batch, size_t from, size_t len)
{
    return len > 0 ? words_of(batch) + from : NULL;
}

/* In chunks of a few dwords. Where a call before the last does not say "more", the number is one that there is not. */
static struct answer ask_feed(uint32_t chip, const struct buffer *lent)
{
    enum { CHUNK = 5 };
    struct mpl_fed fed = {.more = 1};
    size_t dwords = lent[BATCH].len / 4, from = 0, len;
    do {
        if (!says_more(&fed))
            return (struct answer){.number = UINT64_MAX};
        len = dwords - from < CHUNK ? dwords - from : CHUNK;
        fed = mpl_feed(chip, fed.carried, chunk_at(&lent[BATCH], from, len), len, from + len == dwords, CAPACITY,
                       words_of(&lent[RECORDS]), lent[RECORDS].len / 4);
        from += len;
    } while (from < dwords);
    return (struct answer){fed.number, fed.place, fed.commands, fed.dwords};
}

enum { CHECK_BATCH, CHECK_BATCH_DWORDS, CHECK_ORDER, CHECK_ORDER_DWORDS, FEED, ENTRIES };
static const struct entry {
    const char *name;
    struct answer (*ask)(uint32_t chip, const struct buffer *lent);
} entries[ENTRIES] = {
    [CHECK_BATCH] = {"mpl_check_batch", ask_batch},
    [CHECK_BATCH_DWORDS] = {"mpl_check_batch_dwords", ask_batch_dwords},
    [CHECK_ORDER] = {"mpl_check_order", ask_order},
    [CHECK_ORDER_DWORDS] = {"mpl_check_order_dwords", ask_order_dwords},
    [FEED] = {"mpl_feed", ask_feed},
};

static void print_answer(const struct entry *entry, uint32_t chip, const struct answer *answer)
{
    printf("%s, chip %" PRIu32 ": %" PRIu64 " %" PRIu64 " %" PRIu64 " %" PRIu64 "\n", entry->name, chip, answer->number, answer->place,
           answer->third, answer->fourth);
}

/* What is not due is printed. */
static bool is_due(bool due, const struct entry *entry, uint32_t chip, const struct answer *answer)
{
    if (!due)
        print_answer(entry, chip, answer);
    return due;
}

/* Each number that is one bit away from a chip's, so that no bit goes unread; and some others. */
enum { NEAR = 62, CHIPS = 67 };
static uint32_t unknown_chip(uint32_t i)
{
    static const uint32_t others[CHIPS - NEAR] = {0, 1, 8, 9, UINT32_MAX};
    return i < NEAR ? (MPL_GEN6 + i % 2) ^ UINT32_C(2) << i / 2 : others[i - NEAR];
}

/* 18 at place 0, with nothing counted or named, and nothing lent changed. */
static bool refuses(const struct entry *entry, uint32_t chip, const struct buffer *lent)
{
    struct answer answer = entry->ask(chip, lent);
    bool due = answer.number == MPL_UNKNOWN_CHIP && answer.place == 0 && answer.third == 0 && answer.fourth == 0;
    return is_due(due && is_unchanged(lent), entry, chip, &answer);
}

static bool refuses_all(const struct buffer *lent)
{
    bool all = true;
    for (size_t e = 0; e < ENTRIES; e++)
        for (uint32_t i = 0; i < CHIPS; i++)
            all &= refuses(&entries[e], unknown_chip(i), lent);
    return all;
}

static bool answers(const struct entry *entry, uint64_t number, const struct buffer *lent)
{
    struct answer answer = entry->ask(MPL_GEN6, lent);
    return is_due(answer.number == number, entry, MPL_GEN6, &answer);
}

/* Unknown chips first, as Gen6 fills what is lent. */
static int ask_all(const struct input *input)
{
    struct buffer lent[BUFFERS] = {0};
    int status = FAILED;
    if (make_lent(lent, input)) {
        bool all = refuses_all(lent);
        all &= answers(&entries[CHECK_BATCH], input->batch_number, lent);
        all &= answers(&entries[CHECK_ORDER], input->order_number, lent);
        status = all ? DONE : REFUSED;
    }
    free_lent(lent);
    return status;
}

static void print_records(const struct buffer *records)
{
    for (size_t i = 0; i < records->len / MPL_RECORD_BYTES; i++) {
        printf("record %zu:", i);
        for (size_t f = 0; f < MPL_RECORD_WORDS; f++)
            printf(" %" PRIx32, words_of(records)[MPL_RECORD_WORDS * i + f]);
        putchar('\n');
    }
}

/* Of the batch check, over bytes, over dwords or fed: as this machine is little-endian, all print the same words. */
static int show_records(const struct entry *entry)
{
    struct buffer lent[BUFFERS] = {0};
    int status = FAILED;
    if (make_lent(lent, &inputs[0])) {
        struct answer answer = entry->ask(MPL_GEN6, lent);
        print_answer(entry, MPL_GEN6, &answer);
        print_records(&lent[RECORDS]);
        status = DONE;
    }
    free_lent(lent);
    return status;
}

/* As the library has them. */
_Static_assert(sizeof(struct mpl_carried) == 92 && offsetof(struct mpl_carried, own) == 20 &&
                   offsetof(struct mpl_carried, earlier_vfe) == 52 && offsetof(struct mpl_carried, objects) == 88,
               "mpl_carried is 23 words");
_Static_assert(sizeof(struct mpl_fed) == 136 && offsetof(struct mpl_fed, more) == 96 && offsetof(struct mpl_fed, dwords) == 128,
               "mpl_fed is mpl_carried and five numbers of 64 bits");

/* Records for mpl_feed, as words between guards. */
enum { GUARD = MPL_RECORD_WORDS, ROOM_WORDS = ROOM / 4, BATCH_DWORDS = WHOLE / 4 };
struct guarded {
    uint32_t before[GUARD], words[ROOM_WORDS], after[GUARD];
};

static struct guarded painted(void)
{
    struct guarded records;
    memset(&records, PAINT, sizeof records);
    return records;
}

static bool are_same(const struct guarded *one, const struct guarded *other)
{
    return memcmp(one, other, sizeof *one) == 0;
}

/* How they are to be after so many dwords of the batch: those of the commands that are complete, as many as fit in so many words. */
static struct guarded due_after(size_t dwords, size_t words)
{
    struct guarded whole = painted(), due = painted();
    struct mpl_batch batch = mpl_check_batch_dwords(MPL_GEN6, gen6_batch, BATCH_DWORDS, CAPACITY, whole.words, ROOM_WORDS);
    for (size_t i = 0; i < batch.commands && (i + 1) * MPL_RECORD_WORDS <= words; i++) {
        const uint32_t *record = &whole.words[i * MPL_RECORD_WORDS];
        if (record[MPL_WORD_PLACE] + record[MPL_WORD_TOTAL] <= dwords)
            memcpy(&due.words[i * MPL_RECORD_WORDS], record, MPL_RECORD_BYTES);
    }
    return due;
}

static bool gives(const struct mpl_fed *fed, struct answer due)
{
    return fed->more == 0 && fed->number == due.number && fed->place == due.place && fed->commands == due.third &&
           fed->dwords == due.fourth;
}

/* What is not due is printed; it can also be what the call has left. */
static bool is_fed_due(bool due, const char *what, const struct mpl_fed *fed)
{
    if (!due)
        printf("mpl_feed, %s: more %" PRIu64 ", then %" PRIu64 " %" PRIu64 " %" PRIu64 " %" PRIu64 "\n", what, fed->more, fed->number,
               fed->place, fed->commands, fed->dwords);
    return due;
}

static bool is_answered(const struct mpl_fed *fed, const struct mpl_carried *carried)
{
    return gives(fed, (struct answer){.number = MPL_AFTER_ANSWER}) && memcmp(&fed->carried, carried, sizeof *carried) == 0;
}

/* After an answer: 19 to each further call, whatever it names, hands over and lends; carried state and records stay as they are. */
static bool stays_answered(const struct mpl_carried *carried, struct guarded *records)
{
    static const uint32_t chips[] = {MPL_GEN6, MPL_GEN7, 0, MPL_UNKNOWN_CHIP}, lasts[] = {0, 1, 256, UINT32_MAX};
    const struct guarded before = *records;
    bool all = true;
    for (size_t i = 0; all && i < 64; i++) {
        bool empty = i & 16, no_room = i & 32;
        struct mpl_fed fed = mpl_feed(chips[i % 4], *carried, empty ? NULL : gen6_batch, empty ? 0 : BATCH_DWORDS, lasts[i / 4 % 4],
                                      CAPACITY, no_room ? NULL : records->words, no_room ? 0 : ROOM_WORDS);
        all = is_fed_due(is_answered(&fed, carried) && are_same(records, &before), "after an answer", &fed);
    }
    return all;
}

/* Three chunks, with these ends. The chip is Gen6 but in the call `unknown`, where there is one: from that on nothing is read. */
enum { CHUNKS = 3 };
static bool feeds(const struct buffer *lent, const size_t *ends, size_t unknown, struct answer due)
{
    struct guarded records = painted();
    struct mpl_fed fed = {0};
    size_t words = lent[RECORDS].len / 4, from = 0, read = 0;
    bool all = true;
    for (size_t i = 0; all && i < CHUNKS; i++) {
        bool last = i + 1 == CHUNKS;
        size_t len = ends[i] - from;
        fed = mpl_feed(i == unknown ? MPL_GEN7 + 1 : MPL_GEN6, fed.carried, chunk_at(&lent[BATCH], from, len), len, last ? 256 : 0,
                       CAPACITY, words > 0 ? records.words : NULL, words);
        from = ends[i];
        read = i < unknown ? from : read;
        struct guarded records_due = due_after(read, words);
        all = is_fed_due((last ? gives(&fed, due) : says_more(&fed)) && are_same(&records, &records_due), "a chunk of three", &fed);
    }
    return all && stays_answered(&fed.carried, &records);
}

/* The whole batch's answer for every two cuts in it, and 18 where one of the calls has named no chip. */
static bool feeds_all(const struct buffer *lent)
{
    static const struct answer no_chip = {.number = MPL_UNKNOWN_CHIP};
    struct answer whole = ask_batch_dwords(MPL_GEN6, lent);
    size_t dwords = lent[BATCH].len / 4, most = dwords < BATCH_DWORDS ? dwords : BATCH_DWORDS;
    bool all = true;
    for (size_t second = 0; second <= most; second++)
        for (size_t first = 0; all && first <= second; first++) {
            const size_t ends[CHUNKS] = {first, second, dwords};
            all = feeds(lent, ends, CHUNKS, whole);
            for (size_t i = 0; all && i < CHUNKS; i++)
                all = feeds(lent, ends, i, no_chip);
        }
    return all;
}

/* The same in every run: xorshift from one seed. */
static uint32_t random_below(uint32_t n)
{
    static uint64_t state = 1;
    state ^= state << 13;
    state ^= state >> 7;
    state ^= state << 17;
    return (uint32_t)(state >> 16) % n;
}

/* A number of any size, or near a limit, or a dword of a batch. */
static uint32_t junk(void)
{
    switch (random_below(4)) {
    case 0:
        return random_below(UINT32_MAX);
    case 1:
        return MPL_BATCH_DWORDS_MOST - 8 + random_below(16);
    case 2:
        return gen6_batch[random_below(BATCH_DWORDS)];
    default:
        return random_below(32);
    }
}

/* Junk in every word; but in most states, and there in most words that mpl.h's rule asks about, numbers by which a call may go on. */
static struct mpl_carried junk_state(void)
{
    static const uint32_t stops[] = {0, 0, 0, 0, 0, 0, 3, 4, 5, 6, 7, 8, 9, 18, 255, 255, 1, 2, 10, 17, 19, 254, 256};
    uint32_t words[sizeof(struct mpl_carried) / 4];
    for (size_t i = 0; i < sizeof words / sizeof words[0]; i++)
        words[i] = junk();
    struct mpl_carried carried;
    memcpy(&carried, words, sizeof carried);
    if (random_below(8) == 0)
        return carried;
    carried.answered = random_below(16) == 0;
    carried.stop = stops[random_below(sizeof stops / sizeof stops[0])];
    if (random_below(8) != 0)
        carried.dwords = MPL_BATCH_DWORDS_MOST + 2 - random_below(64);
    if (random_below(8) != 0)
        carried.place = random_below(MPL_BATCH_DWORDS_MOST + 8);
    if (random_below(8) != 0)
        carried.got = random_below(2) * random_below(32);
    if (random_below(8) != 0)
        carried.commands = random_below(8);
    if (random_below(8) != 0)
        carried.objects = random_below(8);
    return carried;
}

/* mpl.h's rule: is it gone on from as it stands? */
static bool is_usable(const struct mpl_carried *carried)
{
    uint64_t end = (uint64_t)carried->place + carried->got;
    if (carried->answered != 0 || carried->dwords > MPL_BATCH_DWORDS_MOST + 1)
        return false;
    if (carried->stop != 0)
        return (carried->stop >= MPL_UNKNOWN_COMMAND && carried->stop <= MPL_TOO_LARGE) || carried->stop == MPL_UNKNOWN_CHIP ||
               carried->stop == MPL_STOP_END;
    return end <= carried->dwords && end <= MPL_BATCH_DWORDS_MOST && carried->commands <= carried->place &&
           carried->objects <= carried->place;
}

/* What the last call may answer: 0, with nothing but its counts, or a refusal, with nothing but its place; and so that 19 follows. */
static bool is_answer(const struct mpl_fed *fed)
{
    bool known = fed->number <= MPL_RECORD_ROOM || fed->number == MPL_UNKNOWN_CHIP;
    bool alone = fed->number == MPL_ACCEPTED ? fed->place == 0 : fed->commands == 0 && fed->dwords == 0;
    return fed->more == 0 && known && alone && fed->carried.answered == 1;
}

/* A call with such a state, some dwords and room for some records. `seen` counts the answers by number. */
static bool survives_junk(size_t *seen)
{
    const struct mpl_carried carried = junk_state();
    struct guarded records = painted(), due = painted();
    uint32_t chunk[BATCH_DWORDS], last = random_below(2), chip = random_below(16) == 0 ? junk() : MPL_GEN6 + random_below(2);
    size_t len = random_below(BATCH_DWORDS + 1), words = random_below(ROOM_WORDS + 1);
    for (size_t i = 0; i < len; i++)
        chunk[i] = junk();
    struct mpl_fed fed = mpl_feed(chip, carried, chunk, len, last, CAPACITY, records.words, words);
    bool answered = is_answered(&fed, &carried);
    if (is_usable(&carried)) {
        answered = last != 0 ? is_answer(&fed) : says_more(&fed) && is_usable(&fed.carried);
        memcpy(due.words, records.words, 4 * words);
    }
    if (fed.more == 0 && fed.number <= MPL_AFTER_ANSWER)
        seen[fed.number]++;
    return is_fed_due(answered && are_same(&records, &due), "junk", &fed);
}

/* All numbers that mpl_feed has, and no others, must have come. */
static bool survives_all_junk(void)
{
    enum { STATES_OF_JUNK = 20000, NUMBERS = MPL_RECORD_ROOM + 3 };
    size_t seen[MPL_AFTER_ANSWER + 1] = {0}, numbers = 0;
    bool all = true;
    for (size_t i = 0; all && i < STATES_OF_JUNK; i++)
        all = survives_junk(seen);
    for (size_t number = 0; number <= MPL_AFTER_ANSWER; number++)
        numbers += seen[number] > 0;
    if (all && numbers != NUMBERS)
        printf("mpl_feed, junk: %zu numbers of %d\n", numbers, NUMBERS);
    return all && numbers == NUMBERS;
}

static int feed_all(const struct input *input)
{
    struct buffer lent[BUFFERS] = {0};
    int status = FAILED;
    if (make_lent(lent, input))
        status = feeds_all(lent) ? DONE : REFUSED;
    free_lent(lent);
    return status;
}

static int worse(int one, int other)
{
    return one > other ? one : other;
}

int main(int argc, char **argv)
{
    if (asks_for_help(argc, argv))
        return give_help();
    if (argc != 1) {
        fputs(usage, stderr);
        return FAILED;
    }
    int status = show_records(&entries[CHECK_BATCH]);
    status = worse(status, show_records(&entries[CHECK_BATCH_DWORDS]));
    status = worse(status, show_records(&entries[FEED]));
    for (size_t i = 0; i < sizeof inputs / sizeof inputs[0]; i++)
        status = worse(worse(status, ask_all(&inputs[i])), feed_all(&inputs[i]));
    return printed(survives_all_junk() ? status : worse(status, REFUSED));
}
