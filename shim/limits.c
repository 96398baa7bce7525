/*
 * What a call can take, for the author of a driver: how far below the caller's stack pointer it writes, and how long it lasts, each on the
 * input that took longest of those tried at the library's limits, for each chip where the caller names one. Stack counts what the caller
 * pushes for the call, the return address and all that is written below, the red zone too. It is seen by painting the stack before the
 * call, and so only up to the lowest byte written. Where a batch comes in chunks, the time is that of all its calls.
 * Exit status: 0 every call keeps to the stack that mpl.h names; 1 one does not; 2 not measured or written, and standard error says why.
 */
#define _XOPEN_SOURCE 700 /* clock_gettime, makecontext */
#include <stdio.h>
#include <string.h>
#include <time.h>
#include <ucontext.h>

#include "files.h"
#include "mpl.h"

const char program[] = "mpl_limits";
const char usage[] = "usage: mpl_limits\nprints the stack and the time that each call of the library takes at its limits\n";
const char statuses[] = "exit status: 0 as mpl.h says; 1 a call takes more stack; 2 not measured or written: standard error says why\n";

enum { TURNS = 20, MOST = MPL_BATCH_DWORDS_MOST, EVENTS = UINT16_MAX, PAIR = 2, CAPACITY = 2048 };

static uint32_t chip, batch[MOST], records[MOST * MPL_RECORD_WORDS], run[MOST];
static size_t dwords, run_len;
static uint8_t states[MOST], outcomes[EVENTS], registers[MPL_THREADS_MOST * MPL_THREAD_REGISTER_BYTES];
static uint8_t recording[MPL_RECORDING_GROUPS_AT + MPL_THREADS_MOST + MPL_EVENT_BYTES * EVENTS];
static uint32_t counts[MPL_THREADS_MOST * MPL_COUNTS_PER_THREAD];

/* The same in every run: xorshift from one seed. */
static uint32_t random_below(uint32_t n)
{
    static uint64_t state = 1;
    state ^= state << 13;
    state ^= state >> 7;
    state ^= state << 17;
    return (uint32_t)(state >> 16) % n;
}

static void put(const uint32_t *command, size_t n)
{
    memcpy(batch + dwords, command, n * sizeof *command);
    dwords += n;
}

static void put_each_to_end(uint32_t command)
{
    while (dwords < MOST - 1)
        batch[dwords++] = command;
    batch[dwords++] = 0x05000000; /* END */
}

/* Every dword a command, and none the same as the one before, so that no loop takes two of them. */
static void fill_single(void)
{
    dwords = 0;
    while (dwords < MOST - 1) {
        batch[dwords] = dwords % 2 == 0 ? 0x02000000 : 0; /* MI_FLUSH, no-op */
        dwords++;
    }
    put_each_to_end(0);
}

/* Type 1, all eight deltas in play: seven times (1, 1), then (-1, 1). */
static void put_vfe(void)
{
    static const uint32_t vfe[] = {0x70000006, 0, 0x00070100, 0, 0x00020004, 0xc00000ff, 0x11111111, 0x1f111111};
    put(vfe, sizeof vfe / sizeof vfe[0]);
}

static void put_scoreboard(void)
{
    static const uint32_t descriptor_load[] = {0x70020002, 0, 32, 0x1000};
    put_vfe();
    put(descriptor_load, sizeof descriptor_load / sizeof descriptor_load[0]);
}

/*
 * State flushes and MI_FLUSHes in turn, of two dwords and of one, so that chunks cut some of them; and a VFE that chunks of 64 cut, as its
 * judge goes deepest.
 */
static void fill_flushes(void)
{
    static const uint32_t flushes[] = {0x70040000, 0, 0x02000000};
    enum { LEN = sizeof flushes / sizeof flushes[0], VFE_AT = 20 * LEN };
    dwords = 0;
    while (dwords + LEN < MOST) {
        if (dwords == VFE_AT)
            put_vfe();
        put(flushes, LEN);
    }
    put_each_to_end(0);
}

/*
 * As many OBJECTs as a batch holds, started from the last to the first and none finished, so that each start looks at all before it. Half
 * are where the last delta leads, and use no scoreboard: these are looked at closely by each start of the others.
 */
static void fill_objects(void)
{
    dwords = 0;
    put_scoreboard();
    uint32_t objects = (MOST - 1 - (uint32_t)dwords) / 6;
    for (uint32_t k = 0; k < objects; k++) {
        bool early = k < objects / 2;
        uint32_t object[] = {0x71000004, 0, early ? 0 : 1u << 21, 0, early ? 101u << 16 | 99 : 100u << 16 | 100, 0xff};
        put(object, sizeof object / sizeof object[0]);
        run[k] = 2 * (objects - 1 - k);
    }
    run_len = objects;
    put_each_to_end(0x02000000); /* MI_FLUSH */
}

/* A forward of any length, to any place or to one that ends with the last register, which is stored in another way; notify 0 to 2. */
static void fill_forward(uint8_t *event)
{
    uint32_t code = random_below(6), last = MPL_THREAD_REGISTER_BYTES - (1u << code);
    uint32_t offset = random_below(2) == 0 ? last : random_below(last + 1);
    event[MPL_EVENT_KIND_AT] = MPL_FORWARD;
    event[MPL_EVENT_FLAGS_AT] |= (uint8_t)(random_below(3) << 1);
    event[MPL_EVENT_TARGET_AT] = MPL_THREADS_MOST - 1;
    event[MPL_EVENT_CODE_AT] = (uint8_t)code;
    event[MPL_EVENT_PLACE_AT] = (uint8_t)offset;
    event[MPL_EVENT_PLACE_AT + 1] = (uint8_t)(offset >> 8);
}

/* Under bypass, barriers of groups of two and forwards at random, half of them acknowledged: no processor foresees which. */
static void fill_events(void)
{
    static const uint8_t header[] = {'G', 'W', 'R', 1, 0, MPL_THREADS_MOST, 1, 0xff, 0xff, 0};
    memset(recording, 0, sizeof recording);
    memcpy(recording, header, sizeof header);
    for (size_t t = 0; t < MPL_THREADS_MOST; t++)
        recording[MPL_RECORDING_GROUPS_AT + t] = (uint8_t)(t / PAIR);
    uint8_t *event = recording + MPL_RECORDING_GROUPS_AT + MPL_THREADS_MOST;
    for (size_t i = 0; i < EVENTS; i++, event += MPL_EVENT_BYTES) {
        event[MPL_EVENT_SENDER_AT] = (uint8_t)random_below(MPL_THREADS_MOST);
        event[MPL_EVENT_FLAGS_AT] = (uint8_t)random_below(2);
        event[MPL_EVENT_ACK_REGISTER_AT] = (uint8_t)random_below(128);
        event[MPL_EVENT_KIND_AT] = MPL_BARRIER;
        if (random_below(2) == 0)
            fill_forward(event);
    }
}

static void fill_nothing(void)
{
}

/* The stack pointer before a call's arguments are pushed. */
static uint8_t *at_call;
#define MARK() __asm__ volatile("mov %%rsp, %0" : "=m"(at_call) : : "memory")

static uint64_t ask_batch(void)
{
    MARK();
    return mpl_check_batch(chip, (uint8_t *)batch, 4 * dwords, CAPACITY, (uint8_t *)records, sizeof records).number;
}

static uint64_t ask_batch_dwords(void)
{
    MARK();
    return mpl_check_batch_dwords(chip, batch, dwords, CAPACITY, records, sizeof records / sizeof records[0]).number;
}

/* The whole batch in chunks of so many dwords, from a fresh carried state. */
static uint64_t feed(size_t size)
{
    struct mpl_fed fed = {.more = 1};
    for (size_t from = 0; fed.more != 0; from += size) {
        size_t left = dwords - from, len = size < left ? size : left;
        MARK();
        fed = mpl_feed(chip, fed.carried, batch + from, len, len == left, CAPACITY, records, sizeof records / sizeof records[0]);
    }
    return fed.number;
}

static uint64_t ask_feed(void)
{
    return feed(MOST);
}

static uint64_t ask_feed_64(void)
{
    return feed(64);
}

static uint64_t ask_order(void)
{
    MARK();
    return mpl_check_order(chip, (uint8_t *)batch, 4 * dwords, CAPACITY, (uint8_t *)run, 4 * run_len, (uint8_t *)records, sizeof records,
                           states, sizeof states)
        .number;
}

static uint64_t ask_order_dwords(void)
{
    MARK();
    return mpl_check_order_dwords(chip, batch, dwords, CAPACITY, run, run_len, records, sizeof records / sizeof records[0], states,
                                  sizeof states)
        .number;
}

static uint64_t ask_replay(void)
{
    MARK();
    return mpl_replay(recording, sizeof recording, registers, sizeof registers, counts, sizeof counts / sizeof counts[0], outcomes,
                      sizeof outcomes)
        .number;
}

/* It has no number: 0 where all eight deltas are in play. */
static uint64_t ask_in_play(void)
{
    MARK();
    return mpl_deltas_in_play(1u << 21, 0x800000ff, 0xff).count != 8;
}

/* chip: 0 where the call names none. stack_most: the bytes that mpl.h names. */
static const struct subject {
    const char *name, *input;
    uint32_t chip;
    void (*fill)(void);
    uint64_t (*ask)(void);
    size_t stack_most;
} subjects[] = {
    {"mpl_check_batch", "MI_FLUSHes, no-ops in turn", MPL_GEN6, fill_single, ask_batch, 512},
    {"mpl_check_batch", "MI_FLUSHes, no-ops in turn", MPL_GEN7, fill_single, ask_batch, 512},
    {"mpl_check_batch_dwords", "MI_FLUSHes, no-ops in turn", MPL_GEN6, fill_single, ask_batch_dwords, 512},
    {"mpl_check_batch_dwords", "MI_FLUSHes, no-ops in turn", MPL_GEN7, fill_single, ask_batch_dwords, 512},
    {"mpl_feed", "both flushes, one chunk", MPL_GEN6, fill_flushes, ask_feed, 1280},
    {"mpl_feed", "both flushes, one chunk", MPL_GEN7, fill_flushes, ask_feed, 1280},
    {"mpl_feed", "both flushes, chunks of 64", MPL_GEN6, fill_flushes, ask_feed_64, 1280},
    {"mpl_feed", "both flushes, chunks of 64", MPL_GEN7, fill_flushes, ask_feed_64, 1280},
    {"mpl_check_order", "2,728 OBJECTs, none finished", MPL_GEN6, fill_objects, ask_order, 1024},
    {"mpl_check_order", "2,728 OBJECTs, none finished", MPL_GEN7, fill_objects, ask_order, 1024},
    {"mpl_check_order_dwords", "2,728 OBJECTs, none finished", MPL_GEN6, fill_objects, ask_order_dwords, 1024},
    {"mpl_check_order_dwords", "2,728 OBJECTs, none finished", MPL_GEN7, fill_objects, ask_order_dwords, 1024},
    {"mpl_replay", "65,535 barriers and forwards", 0, fill_events, ask_replay, 1024},
    {"mpl_deltas_in_play", "all eight", 0, fill_nothing, ask_in_play, 64},
};

/* A call on a stack of its own. */
static uint8_t stack[1 << 16];
static ucontext_t here, there;
static const struct subject *asked;

static void ask_there(void)
{
    (void)asked->ask();
}

/* The bytes below the stack pointer at the call that are no longer the paint. */
static size_t painted_over(uint8_t paint)
{
    memset(stack, paint, sizeof stack);
    getcontext(&there);
    there.uc_stack.ss_sp = stack;
    there.uc_stack.ss_size = sizeof stack;
    there.uc_link = &here;
    makecontext(&there, ask_there, 0);
    swapcontext(&here, &there);
    size_t lowest = 0;
    while (stack[lowest] == paint)
        lowest++;
    return (size_t)(at_call - (stack + lowest));
}

/* A byte written with the paint's own value does not show: so in two colours. */
static size_t stack_of(const struct subject *subject)
{
    asked = subject;
    size_t one = painted_over(0xa5), other = painted_over(0x5a);
    return one > other ? one : other;
}

static double microseconds(void)
{
    struct timespec time;
    clock_gettime(CLOCK_MONOTONIC, &time);
    return (double)time.tv_sec * 1e6 + (double)time.tv_nsec / 1e3;
}

/* The best of some turns, as other work on the machine can only add to one. */
static double time_of(const struct subject *subject)
{
    double best = 0;
    for (int i = 0; i < TURNS; i++) {
        double start = microseconds();
        (void)subject->ask();
        double took = microseconds() - start;
        if (i == 0 || took < best)
            best = took;
    }
    return best;
}

/* An input that is refused says nothing of the limits. The call that asks also binds memcpy and memset, which would show as stack. */
static int measure(const struct subject *subject)
{
    chip = subject->chip;
    subject->fill();
    if (subject->ask() != 0) {
        complain(subject->name, "its input is refused");
        return FAILED;
    }
    size_t bytes = stack_of(subject);
    char named = chip != 0 ? (char)('0' + chip) : '-';
    printf("| %-22s | %4c | %-28s | %11zu | %12.1f |\n", subject->name, named, subject->input, bytes, time_of(subject));
    return bytes > subject->stack_most ? REFUSED : DONE;
}

int main(int argc, char **argv)
{
    if (asks_for_help(argc, argv))
        return give_help();
    if (argc != 1) {
        fputs(usage, stderr);
        return FAILED;
    }
    puts("| call                   | chip | input                        | stack bytes | microseconds |");
    puts("| ---                    |  --: | ---                          |         --: |          --: |");
    int status = DONE;
    for (size_t i = 0; i < sizeof subjects / sizeof subjects[0]; i++) {
        int more = measure(&subjects[i]);
        if (more > status)
            status = more;
    }
    return printed(status);
}
