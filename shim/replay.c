/*
 * The replay as a program, for the bench: lends buffers, replays a recording, and says what became of each event and how it all ended.
 * What it prints may go to the board supplier: of an event's bytes it prints kind and sender, and never a register's. The registers are
 * the client's, and go to a file of their own.
 * Exit status: 0 replayed; 1 refused; 2 not asked, or what it answered not written, and standard error says why.
 */
#include <inttypes.h>
#include <stdio.h>
#include <stdlib.h>
#include <string.h>

#include "files.h"
#include "mpl.h"

enum { HEADER_BYTES = MPL_RECORDING_GROUPS_AT };

/* No recording that is accepted is longer. */
enum { RECORDING_BYTES_MOST = HEADER_BYTES + MPL_THREADS_MOST + MPL_EVENT_BYTES * UINT16_MAX };

const char program[] = "mpl_replay";
const char usage[] = "usage: mpl_replay RECORDING [REGISTERS]\n"
                     "RECORDING: a file; REGISTERS: a new file for the registers as the replay leaves them, 4,096 bytes a thread\n";
const char statuses[] = "exit status: 0 replayed; 1 refused; 2 not asked, or the answer not written: standard error says why\n"
                        "REGISTERS is made with exit status 0 alone, and for its owner to read alone\n";

/* Document 004's names of its SubFuncIDs. */
static const char *const kinds[] = {"OpenGateway", "CloseGateway",       "ForwardMsg",     "GetTimeStamp",
                                    "BarrierMsg",  "UpdateGatewayState", "MMIO Read/Write"};

/* What each number means, of a recording and of an event. 16 cannot occur, as what the header asks for is lent. */
static const char *const meanings[] = {
    [MPL_ACCEPTED] = "accepted",
    [MPL_RECORDING_MARK] = "under 10 bytes, or wrong mark",
    [MPL_RECORDING_VERSION] = "version is not 1",
    [MPL_RECORDING_HEADER] = "threads not 1 to 16, bypass over 1, or byte 9 not zero",
    [MPL_RECORDING_LENGTH] = "length is not 10 + threads + 48 x events",
    [MPL_RECORDING_GROUP] = "a group byte neither 0 to 15 nor 255",
    [MPL_RECORDING_ROOM] = "lent registers, counts or outcomes not those of its threads and events",
    [MPL_EVENT_MALFORMED] = "kind, sender, flags or another field out of range",
    [MPL_EVENT_NOT_SERVED] = "not served: kind 3 or 6, or kind 0 or 1 under bypass",
    [MPL_OPEN_PAST_END] = "base + 2^size code over 128 registers",
    [MPL_NO_RECIPIENT] = "recipient not a thread",
    [MPL_GATEWAY_CLOSED] = "the recipient's gateway is closed",
    [MPL_KEY_DIFFERS] = "key not that of the recipient's gateway",
    [MPL_PAST_WINDOW] = "offset + 2^length code bytes over the recipient's window (under bypass over 4,096)",
    [MPL_NO_GROUP] = "sender has no barrier group",
    [MPL_WAITS_ALREADY] = "sender waits already",
};

static const char *meaning_of(uint32_t number)
{
    bool known = number < sizeof meanings / sizeof meanings[0] && meanings[number] != NULL;
    return known ? meanings[number] : "a number that this program does not know";
}

/* Threads at most 16: with more the library refuses the recording before it looks at what is lent. */
struct lent {
    struct buffer recording, registers, counts, outcomes;
    size_t threads, events;
};

/* A file too short for a header asks for nothing. */
static void read_header(struct lent *lent)
{
    if (lent->recording.len < HEADER_BYTES)
        return;
    const uint8_t *header = lent->recording.bytes;
    lent->threads = header[MPL_RECORDING_THREADS_AT] < MPL_THREADS_MOST ? header[MPL_RECORDING_THREADS_AT] : MPL_THREADS_MOST;
    lent->events = (size_t)header[MPL_RECORDING_EVENTS_AT] | (size_t)header[MPL_RECORDING_EVENTS_AT + 1] << 8;
}

/* The registers begin as zeros. The replay sets the counts and outcomes itself, so that they need not be cleared. */
static bool make_lent(struct lent *lent, const char *path)
{
    if (!read_file(path, RECORDING_BYTES_MOST + 1, &lent->recording)) /* one byte more: the library refuses any longer file by it */
        return false;
    read_header(lent);
    if (!allocate(&lent->registers, lent->threads * MPL_THREAD_REGISTER_BYTES) ||
        !allocate(&lent->counts, lent->threads * MPL_COUNTS_PER_THREAD * sizeof(uint32_t)) || !allocate(&lent->outcomes, lent->events))
        return false;
    if (lent->registers.len > 0) /* memset takes no null */
        memset(lent->registers.bytes, 0, lent->registers.len);
    return true;
}

static void free_lent(struct lent *lent)
{
    free(lent->recording.bytes);
    free(lent->registers.bytes);
    free(lent->counts.bytes);
    free(lent->outcomes.bytes);
}

/* malloc has aligned it. */
static uint32_t *counts_in(const struct lent *lent)
{
    return (uint32_t *)(void *)lent->counts.bytes;
}

/* A kind over 6 has no name. */
static void print_event(size_t i, uint8_t kind, uint8_t sender, uint8_t outcome)
{
    bool named = kind < sizeof kinds / sizeof kinds[0];
    printf("event %zu: kind %u%s%s, sender %u, outcome %u: %s\n", i, kind, named ? " " : "", named ? kinds[kind] : "", sender, outcome,
           meaning_of(outcome));
}

static void print_events(const struct lent *lent)
{
    const uint8_t *event = lent->recording.bytes + HEADER_BYTES + lent->threads;
    for (size_t i = 0; i < lent->events; i++, event += MPL_EVENT_BYTES)
        print_event(i, event[MPL_EVENT_KIND_AT], event[MPL_EVENT_SENDER_AT], lent->outcomes.bytes[i]);
}

static void print_counts(const uint32_t *counts, size_t threads)
{
    for (size_t t = 0; t < threads; t++, counts += MPL_COUNTS_PER_THREAD)
        printf("thread %zu: N0 %" PRIu32 ", N2 %" PRIu32 "\n", t, counts[0], counts[1]);
}

static void print_gateways(const struct mpl_gateway *gateway, size_t threads)
{
    for (size_t t = 0; t < threads; t++, gateway++)
        if (gateway->open)
            printf("gateway %zu: open, base %" PRIu32 ", size code %" PRIu32 ", key %" PRIu32 "\n", t, gateway->base, gateway->size,
                   gateway->key);
        else
            printf("gateway %zu: closed\n", t);
}

static void print_barrier(size_t i, const struct mpl_barrier *barrier)
{
    printf("barrier %zu: byte %" PRIu32 ", waiting", i, barrier->byte);
    for (unsigned t = 0; t < MPL_THREADS_MOST; t++)
        if (barrier->waiting >> t & 1)
            printf(" %u", t);
    puts(barrier->waiting == 0 ? " none" : "");
}

/* Those that no event has touched, or that are as if none had, are left out. */
static void print_barriers(const struct mpl_barrier *barriers, size_t n)
{
    for (size_t i = 0; i < n; i++)
        if (barriers[i].byte != 0 || barriers[i].waiting != 0)
            print_barrier(i, &barriers[i]);
}

static void print_replayed(const struct lent *lent, const struct mpl_replayed *replayed)
{
    printf("recording: number 0: replayed, %zu threads, %zu events\n", lent->threads, lent->events);
    print_events(lent);
    print_counts(counts_in(lent), lent->threads);
    print_gateways(replayed->gateways, lent->threads);
    print_barriers(replayed->barriers, sizeof replayed->barriers / sizeof replayed->barriers[0]);
}

/* A refused recording has no registers to give back. They are written last, so that no run that fails leaves them. */
static int ask(const struct lent *lent, const char *registers_path)
{
    struct mpl_replayed replayed =
        mpl_replay(lent->recording.bytes, lent->recording.len, lent->registers.bytes, lent->registers.len, counts_in(lent),
                   lent->threads * MPL_COUNTS_PER_THREAD, lent->outcomes.bytes, lent->outcomes.len);
    if (replayed.number != MPL_ACCEPTED) {
        printf("recording: number %" PRIu32 ": %s\n", replayed.number, meaning_of(replayed.number));
        return printed(REFUSED);
    }
    print_replayed(lent, &replayed);
    int status = printed(DONE);
    if (status == DONE && registers_path != NULL && !write_new_file(registers_path, &lent->registers))
        return FAILED;
    return status;
}

int main(int argc, char **argv)
{
    if (asks_for_help(argc, argv))
        return give_help();
    if (argc < 2 || argc > 3) {
        fputs(usage, stderr);
        return FAILED;
    }
    struct lent lent = {0};
    int status = make_lent(&lent, argv[1]) ? ask(&lent, argc == 3 ? argv[2] : NULL) : FAILED;
    free_lent(&lent);
    return status;
}
