/*
 * The checker of media command batches, of runs and of gateway recordings, for C on x86-64. Link libmpl.a (`make
 * target/staticlib/libmpl.a`); it needs memcpy and memset. shim/shim.c, shim/feed.c and shim/replay.c are examples. The checks are for Gen6
 * and for Gen7: the caller names the chip.
 *
 * What a caller owes: each pointer is valid for its length, in elements; it may be null only where that length is 0; pointers to uint32_t
 * are aligned, those to bytes need not be; no two buffers of a call overlap; during the call nobody else writes them, or reads those that
 * are lent for writing. The answer is about the bytes as they stood then: a batch that is written afterwards is one not checked.
 * In return every call ends, and none allocates, keeps a pointer or a state, or reads or writes outside what it was lent, whatever the
 * batch, run or recording holds. What the buffers lent for writing hold before a call changes no answer.
 *
 * Where it may run: in a process of user space. A call uses the SSE registers (xmm0 to xmm15; neither AVX nor x87), wants the stack aligned
 * to 16 bytes, as the x86-64 ABI has it, and keeps values in the red zone, the 128 bytes below the stack pointer. In a kernel an interrupt
 * or a fault that is taken on the stack in use overwrites these, and a batch that is to be refused could pass. So a kernel thread may call
 * it only with interrupts off, all buffers resident, any other trap on a stack of its own, the stack aligned (Linux compiles its kernel for
 * 8 bytes), and the vector registers saved (in Linux, between kernel_fpu_begin and kernel_fpu_end); an order check is too long for that. A
 * driver that cannot see to all of it asks a process.
 *
 * What a call takes (`make limits` measures it; docs/BENCHMARKS.md has the figures and how they were taken, below At the limits):
 * Stack, arguments, return address and red zone included: a batch check at most 512 bytes, an order check or a replay 1,024, mpl_feed
 * 1,280, mpl_deltas_in_play 64. The caller's memcpy and memset come on top. No frame depends on the input.
 * Time, for 16,384 dwords or 65,535 events: a batch check some 0.1 milliseconds, the same in chunks of 64 some 0.2, a replay some 1, an
 * order check some 10. That one grows with the OBJECTs times the commands where two OBJECTs or more stay unfinished, and not with the run's
 * length: at most two events an object pass, and the one after them ends the run.
 */
#ifndef MPL_H
#define MPL_H

#include <stddef.h>
#include <stdint.h>

#ifdef __cplusplus
extern "C" {
#endif

/*
 * The chips. They differ in their must-be-zero bits (number 6: those of the chip's own manual; docs/LISTING.md has the bits that differ)
 * and in MEDIA_GATEWAY_STATE, which Gen6 alone knows. All else below holds for both.
 */
enum {
    MPL_GEN6 = 6,
    MPL_GEN7 = 7
};

/*
 * Why a batch is turned away. Asked in this order: 18; 17; 1; command by command 3 to 9, the lowest number of the first faulty one; 2 where
 * the batch ends without END; 10. A place counts dwords from the start of the batch; "the command" is its first dword.
 */
enum {
    MPL_ACCEPTED = 0,
    MPL_TOO_LONG = 1,           /* over 16,384 dwords; place 0 */
    MPL_NO_END = 2,             /* slice used up before END; place: its length */
    MPL_UNKNOWN_COMMAND = 3,    /* header's type and opcodes of none of the chip's kinds below; place: the command */
    MPL_LENGTH_FIELD = 4,       /* length field not the kind's own, or an OBJECT's under 4; place: the command */
    MPL_RUNS_PAST = 5,          /* command runs past the slice; place: the command */
    MPL_MUST_BE_ZERO = 6,       /* a must-be-zero bit of the chip is set; place: the first such dword */
    MPL_LOAD_FIELDS = 7,        /* load length or address not a multiple of 32, or descriptor length outside 32 to 2,048; place: the first
                                   such dword */
    MPL_ORDER = 8,              /* order, below; place: the command */
    MPL_TOO_LARGE = 9,          /* VFE: entries x entry size + CURBE size over capacity; CURBE load: length over 32 x CURBE size in force;
                                   place: the command */
    MPL_RECORD_ROOM = 10,       /* all commands pass, but the record buffer has fewer than 16 words per command; place: dwords read */
    MPL_PART_OF_A_DWORD = 17,   /* byte entries only, before all others but 18: not a multiple of 4 bytes; place: whole dwords */
    MPL_UNKNOWN_CHIP = 18       /* chip neither 6 nor 7, before all others; place 0 */
};

/*
 * Order, number 8: CURBE load, descriptor load, OBJECT and gateway state need an earlier VFE. A VFE needs that none of these four and no
 * VFE stands since the last MI_FLUSH or the start. Where its dwords 1 to 4 are those of the last VFE before it, to the last bit, so that
 * only scoreboard enable, type, mask or deltas can differ (dwords 5 to 7), a state flush is enough: it needs that none stands since the
 * last MI_FLUSH or state flush. A descriptor load needs that no OBJECT stands since the last MI_FLUSH or state flush. An OBJECT's
 * descriptor index is below the count last loaded.
 */

/* Kinds of command, in word 0 of a record. */
enum {
    MPL_NO_OP = 0,              /* 0x00000000, the whole dword */
    MPL_FLUSH = 1,              /* 0x02000000, MI_FLUSH, the whole dword */
    MPL_END = 2,                /* 0x05000000, the whole dword; dwords after it are not read */
    MPL_VFE_STATE = 3,          /* 0x70000006, 8 dwords */
    MPL_CURBE_LOAD = 4,         /* 0x70010002, 4 dwords */
    MPL_DESCRIPTOR_LOAD = 5,    /* 0x70020002, 4 dwords */
    MPL_STATE_FLUSH = 6,        /* 0x70040000, 2 dwords */
    MPL_OBJECT = 7,             /* 0x7100nnnn, nnnn from 4, nnnn + 2 dwords */
    MPL_GATEWAY_STATE = 8       /* 0x70030000, 2 dwords; Gen6 only: on Gen7 it is 3, whatever its length field */
};

enum {
    MPL_BATCH_DWORDS_MOST = 16384,
    MPL_RECORD_WORDS = 16,
    MPL_RECORD_BYTES = 64
};

/* Words of a record: these three, then the kind's fields from word 3 on, then zeros. Word f of record i is records[16 * i + f]. */
enum {
    MPL_WORD_KIND = 0,
    MPL_WORD_PLACE = 1,             /* of the command's first dword */
    MPL_WORD_TOTAL = 2              /* dwords */
};
enum {                              /* MPL_VFE_STATE */
    MPL_VFE_THREADS = 3,            /* the thread field */
    MPL_VFE_ENTRIES = 4,            /* URB entries */
    MPL_VFE_BYPASS = 5,             /* gateway bypass: 0 or 1 */
    MPL_VFE_ENTRY_SIZE = 6,         /* rows */
    MPL_VFE_CURBE_SIZE = 7,         /* rows */
    MPL_VFE_DWORD_5 = 8,            /* scoreboard enable, type, mask */
    MPL_VFE_DWORD_6 = 9,            /* deltas 0 to 3 */
    MPL_VFE_DWORD_7 = 10            /* deltas 4 to 7 */
};
enum {                              /* MPL_CURBE_LOAD, MPL_DESCRIPTOR_LOAD */
    MPL_LOAD_LENGTH = 3,            /* CURBE load: bytes */
    MPL_LOAD_COUNT = 3,             /* descriptor load: descriptors, length / 32 */
    MPL_LOAD_ADDRESS = 4
};
enum { MPL_STATE_FLUSH_DWORD_1 = 3 };
enum { MPL_GATEWAY_STATE_DWORD_1 = 3 }; /* 23:16 barrier, 15:8 its byte, 7:0 its thread count */
enum {                              /* MPL_OBJECT */
    MPL_OBJECT_INDEX = 3,           /* descriptor index */
    MPL_OBJECT_USES_SCOREBOARD = 4, /* its own bit, 0 or 1 */
    MPL_OBJECT_CHILDREN = 5,
    MPL_OBJECT_SYNCHRONISED = 6,
    MPL_OBJECT_X = 7,
    MPL_OBJECT_Y = 8,
    MPL_OBJECT_COLOUR = 9,
    MPL_OBJECT_MASK = 10,
    MPL_OBJECT_INLINE = 11,         /* dwords of inline data */
    MPL_OBJECT_INDIRECT_LENGTH = 12,
    MPL_OBJECT_INDIRECT_ADDRESS = 13,
    MPL_OBJECT_VFE = 14,            /* record number of the VFE in force */
    MPL_OBJECT_NUMBER = 15          /* objects before it in the batch */
};

/* number 0: accepted, with place 0; else a refusal, with commands and dwords 0. */
struct mpl_batch {
    uint64_t number, place, commands, dwords;
};

/*
 * May the chip read this batch? `chip` is MPL_GEN6 or MPL_GEN7. Lent: the batch, to read; `records`, to write, 16 words a command (16 for
 * each dword of the batch are always enough). capacity is the lent URB capacity in 256-bit rows.
 * Accepted: `commands` records of 16 words stand in `records`, in the batch's order; `dwords` were read, END included; every other
 * word of `records` is as it was. Refused, with 1 to 10 or 18: `records` is as it was, all of it. The batch is never written.
 */
struct mpl_batch mpl_check_batch_dwords(uint32_t chip, const uint32_t *batch, size_t batch_len, uint32_t capacity, uint32_t *records,
                                        size_t records_len);

/*
 * The same over little-endian bytes, lengths in bytes: records of 64 bytes, their words little-endian; also 17, on which `records`
 * is as it was too. A tail of `records` under 64 bytes is no fault.
 */
struct mpl_batch mpl_check_batch(uint32_t chip, const uint8_t *batch, size_t batch_len, uint32_t capacity, uint8_t *records,
                                 size_t records_len);

/*
 * A batch that comes in parts: the batch check over dwords, fed chunk by chunk. The caller starts from a carried state of zeros
 * (struct mpl_carried carried = {0};), gives each call the `carried` that the one before returned, names one chip and one capacity and
 * lends one record buffer throughout, and marks the last chunk by a `last` that is not 0. The batch may be cut at any dword; a chunk may be
 * empty. Calls before the last say `more`, whatever they met. The last answers as mpl_check_batch_dwords does on all the chunks joined: the
 * same number, place, commands and dwords; 1 goes by the dwords of all chunks, those after END and after a fault included.
 * Unlike mpl_check_batch_dwords, records are written as commands pass, as many whole ones as fit in `records`: after each call those of the
 * commands complete so far, before the first faulty one, up to END, and within the first 16,384 dwords. So after acceptance they are those
 * of mpl_check_batch_dwords, and after a refusal those of the commands passed that end within the first 16,384 dwords (after 18 none).
 * Every other word of `records` is as it was.
 * One more number, asked before 18: after any answer, 0 or a refusal, every further call, last or not, empty or not, gives 19 at 0, hands
 * the carried state back as it is, and leaves `records` as it was. `more` is no answer. shim/feed.c is an example.
 */
enum {
    MPL_AFTER_ANSWER = 19       /* a chunk offered after an answer was given; place 0 */
};

enum { MPL_STOP_END = 255 };    /* stop, below: END was met */

/*
 * What is carried from call to call: numbers alone, all zero before the first chunk. It is for the library: whatever `stop` says, the
 * answer is the last call's, and may still be 1 or 18.
 * A caller's own mistakes: each call goes by the chip, the capacity and the record buffer that it is given. A call that names no chip reads
 * and counts nothing; the last one then answers 18, whatever it names, and the records of earlier calls stay. A carried state that no
 * call returned is answered with 19, and nothing changes, where `answered` is not 0, `dwords` is over 16,385, or `stop` is none of 0, 3 to
 * 9, 18 and 255; or where `stop` is 0 and `place` plus `got` is over `dwords` or over 16,384, or `commands` or `objects` over `place`. Any
 * other is gone on from as it stands; whatever it holds, the call ends, stays inside what it was lent, and says `more` or answers one of
 * 0 to 10 and 18.
 */
struct mpl_carried {
    uint32_t answered;      /* 1: an answer was given */
    uint32_t dwords;        /* that have come; 16,385 for any more */
    uint32_t stop;          /* 0: reading goes on; MPL_STOP_END; else the number of the refusal that was met: 3, 4, 6 to 9 or 18 */
    uint32_t place;         /* while reading goes on, of the command that is not whole yet, or of the next; after END the dwords read;
                               else of the refusal */
    uint32_t got;           /* how many dwords have come of the command that is not whole yet */
    uint32_t own[8];        /* of the command that is not whole yet: the dwords that have come, without inline data, then zeros */
    /* of the commands passed: whether there is a VFE, the number of the last one's record and its dwords 1 to 4, the count last loaded,
       what stands since the last flushes, how many commands there are, how many OBJECTs */
    uint32_t earlier_vfe, vfe_in_force, vfe_dword_1, vfe_dword_2, vfe_dword_3, vfe_dword_4;
    uint32_t count_loaded, standing, commands, objects;
};

/* more 1: the call is not the last, and the numbers after it are 0. more 0: number, place, commands and dwords as in mpl_batch. */
struct mpl_fed {
    struct mpl_carried carried;
    uint64_t more, number, place, commands, dwords;
};

/* The chunk is never written. Lengths in dwords. */
struct mpl_fed mpl_feed(uint32_t chip, struct mpl_carried carried, const uint32_t *chunk, size_t chunk_len, uint32_t last,
                        uint32_t capacity, uint32_t *records, size_t records_len);

/*
 * Why a run is turned away; 1 to 10 and 17 are the batch's, 17 also the run's, 18 the chip's. 22, 24 and 25 are of a start, 23 of a finish;
 * "it" is the object started. An object uses a scoreboard where its own bit and its VFE's enable are both set. It waits for each object
 * before it in the batch that is unfinished, uses a scoreboard, has its colour, and whose X and Y are its own plus a delta in play, as
 * whole numbers.
 */
enum {
    MPL_FEW_STATES = 20,        /* fewer state bytes than objects; place 0 */
    MPL_NO_SUCH_OBJECT = 21,    /* the batch has no object of that number */
    MPL_NOT_WAITING = 22,       /* start of one not waiting */
    MPL_NOT_RUNNING = 23,       /* finish of one not running */
    MPL_STALLS = 24,            /* it uses a scoreboard of type 0 (stalling) and an object before it is in state 0; names the lowest */
    MPL_WAITS = 25              /* it waits; names the lowest object that it waits for, and the lowest delta at it */
};

/* State bytes, by object number. */
enum {
    MPL_WAITING = 0,
    MPL_RUNNING = 1,
    MPL_FINISHED = 2
};

/*
 * number 0: the run was taken to its end, and place is its event count. 21 to 25: place is the bad event's position in the run, from 0.
 * 1 to 10 and 18: as mpl_batch, place in the batch. 17: place is the whole dwords of the batch or, if the batch has no part of a dword, of
 * the run. object and delta are 0 where the number names none.
 */
struct mpl_order {
    uint64_t number, place, object, delta;
};

/*
 * Is the order in which the batch's objects ran one that the scoreboard permits? A run is a list of numbers: 2k starts object k, 2k + 1
 * finishes it. Lent: batch and run, to read; `records`, as above, and `states`, to write, a byte an object (one for each 6 dwords of the
 * batch is always enough). The batch is checked first, as above.
 * 0 and 21 to 25: `records` holds the batch's records, as mpl_check_batch_dwords leaves them; states[k] is the state of object k, which
 * begins MPL_WAITING, after the last event that passed; state bytes past the objects are as they were.
 * 1 to 10, 18 and 20: `records` and `states` are as they were, all of them. Batch and run are never written.
 */
struct mpl_order mpl_check_order_dwords(uint32_t chip, const uint32_t *batch, size_t batch_len, uint32_t capacity, const uint32_t *run,
                                        size_t run_len, uint32_t *records, size_t records_len, uint8_t *states, size_t states_len);

/*
 * The same over little-endian bytes, lengths in bytes; also 17, of the batch, then of the run, before all others but 18, on which nothing
 * is changed either.
 */
struct mpl_order mpl_check_order(uint32_t chip, const uint8_t *batch, size_t batch_len, uint32_t capacity, const uint8_t *run,
                                 size_t run_len, uint8_t *records, size_t records_len, uint8_t *states, size_t states_len);

/* A recording: a header of 10 bytes, a group byte a thread, then its events. 16-bit numbers have the low byte first. */
enum {                                  /* bytes of the header; 0 to 2 hold the mark, "GWR" */
    MPL_RECORDING_VERSION_AT = 3,       /* 16 bits: 1 */
    MPL_RECORDING_THREADS_AT = 5,       /* 1 to 16 */
    MPL_RECORDING_BYPASS_AT = 6,        /* 0 or 1 */
    MPL_RECORDING_EVENTS_AT = 7,        /* 16 bits */
    MPL_RECORDING_ZERO_AT = 9,          /* 0 */
    MPL_RECORDING_GROUPS_AT = 10        /* a barrier's number, 0 to 15, or 255 for no group, for each thread; then the events */
};
enum {                                  /* bytes of an event */
    MPL_EVENT_KIND_AT = 0,
    MPL_EVENT_SENDER_AT = 1,            /* a thread */
    MPL_EVENT_FLAGS_AT = 2,             /* bit 0 ack, 2:1 notify, 3 end of thread, rest zero */
    MPL_EVENT_ACK_REGISTER_AT = 3,      /* the sender's register for the acknowledgement */
    MPL_EVENT_TARGET_AT = 4,            /* forward: recipient; update: barrier */
    MPL_EVENT_CODE_AT = 5,              /* open: size code; forward: length code; update: barrier byte */
    MPL_EVENT_KEY_AT = 6,               /* 16 bits */
    MPL_EVENT_PLACE_AT = 8,             /* 16 bits. Open: register base; forward: offset */
    MPL_EVENT_ZEROS_AT = 10,            /* 10 to 15: zero */
    MPL_EVENT_DATA_AT = 16,             /* 32 bytes */
    MPL_EVENT_BYTES = 48
};
enum {                                  /* kinds of event: the gateway manual's SubFuncID */
    MPL_OPEN_GATEWAY = 0,
    MPL_CLOSE_GATEWAY = 1,
    MPL_FORWARD = 2,
    MPL_TIMESTAMP = 3,                  /* not served */
    MPL_BARRIER = 4,
    MPL_UPDATE = 5,
    MPL_MMIO = 6                        /* not served */
};

/* Why a whole recording is turned away: the lowest that holds. */
enum {
    MPL_RECORDING_MARK = 11,    /* under 10 bytes, or wrong mark */
    MPL_RECORDING_VERSION = 12, /* not 1 */
    MPL_RECORDING_HEADER = 13,  /* threads not 1 to 16, bypass over 1, or byte 9 not zero */
    MPL_RECORDING_LENGTH = 14,  /* length is not 10 + threads + 48 x events */
    MPL_RECORDING_GROUP = 15,   /* a group byte neither 0 to 15 nor 255 */
    MPL_RECORDING_ROOM = 16     /* registers not 4,096 bytes a thread, counts not two a thread, or fewer outcome bytes than events */
};

/* Outcome bytes, one for each event: 0 accepted, else the lowest that holds. */
enum {
    MPL_EVENT_MALFORMED = 31,   /* malformed, below */
    MPL_EVENT_NOT_SERVED = 32,  /* kind 3 or 6; kind 0 or 1 under bypass */
    MPL_OPEN_PAST_END = 33,     /* open without end of thread: base + 2^size code over 128 registers */
    MPL_NO_RECIPIENT = 34,      /* forward: recipient not a thread */
    MPL_GATEWAY_CLOSED = 35,    /* forward, but under bypass: the recipient's gateway is closed */
    MPL_KEY_DIFFERS = 36,       /* forward, but under bypass: key is not that of the recipient's gateway */
    MPL_PAST_WINDOW = 37,       /* forward: offset + 2^length code bytes over the window, under bypass over the thread's 4,096 */
    MPL_NO_GROUP = 38,          /* barrier: sender has no group */
    MPL_WAITS_ALREADY = 39      /* barrier: sender waits already */
};

/*
 * Malformed, number 31: kind over 6; sender not a thread; a flag bit that must be zero; end of thread with ack, or on a kind but open and
 * close; forward with notify 3, length code over 5 or offset over 8,191; open without end of thread with base over 127 or size code over 5;
 * ack register over 127 where the ack counts (open, close, forward, barrier); bytes 10 to 15 not zero; update of a barrier over 15.
 * An open with end of thread closes the sender's gateway, whatever its base, size code and key are.
 */

enum {
    MPL_THREADS_MOST = 16,
    MPL_THREAD_REGISTER_BYTES = 4096,
    MPL_COUNTS_PER_THREAD = 2   /* N0, then N2 */
};

/* A thread's gateway: open is 1 or 0; size is the size code. All 0 where it is closed. */
struct mpl_gateway {
    uint32_t open, base, size, key;
};

/* A barrier: bit t of waiting is set where thread t waits. */
struct mpl_barrier {
    uint32_t byte, waiting;
};

/* number 0: replayed, with the gateways and barriers at the end; else 11 to 16, with every gateway closed and every barrier empty. */
struct mpl_replayed {
    uint32_t number;
    struct mpl_gateway gateways[16];
    struct mpl_barrier barriers[16];
};

/*
 * What did each thread's messages do? Lent: the recording, to read; to write, by its thread count (byte 5) and event count (bytes 7 and 8),
 * `registers`, exactly 4,096 bytes a thread, thread 0's first, `counts`, exactly two numbers a thread, `outcomes`, at least one byte an
 * event.
 * 0: `registers` holds what it held, with the accepted forwards and the acknowledgements written in the events' order; `counts` holds the
 * notifications, counted from 0; outcomes[i] is event i's; outcome bytes past the events are as they were.
 * 11 to 16: registers, counts and outcomes are as they were, all of them. The recording is never written.
 */
struct mpl_replayed mpl_replay(const uint8_t *recording, size_t recording_len, uint8_t *registers, size_t registers_len,
                               uint32_t *counts, size_t counts_len, uint8_t *outcomes, size_t outcomes_len);

/* lowest is 8 where no delta is in play. */
struct mpl_in_play {
    uint32_t count, lowest;
};

/*
 * How many of the eight deltas are in play for an object, and which is the lowest: those set in its mask (bits 7:0 of its dword 5) and
 * in its VFE's (bits 7:0 of VFE dword 5), where it uses a scoreboard (bit 21 of its dword 2, bit 31 of VFE dword 5); else none.
 * Any dwords will do: other bits are not looked at.
 */
struct mpl_in_play mpl_deltas_in_play(uint32_t object_dword_2, uint32_t vfe_dword_5, uint32_t object_dword_5);

#ifdef __cplusplus
}
#endif

#endif
