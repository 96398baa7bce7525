#include "batch.h"

#include <inttypes.h>
#include <stdio.h>
#include <stdlib.h>

/* The byte past the most tells a file that is too large. */
bool read_words(const char *path, struct buffer *file)
{
    if (!read_file(path, FILE_BYTES_MOST + 1, file))
        return false;
    return file->len <= FILE_BYTES_MOST || complain(path, "over 1 MiB");
}

bool is_option(const char *argument)
{
    return argument[0] == '-' && argument[1] != '\0';
}

/* strtoull would take a sign or a blank; its answer on overflow is above every `most`. */
bool take_number(const char *text, uint32_t most, uint32_t *number, const char **rest)
{
    char *end;
    unsigned long long value = strtoull(text, &end, 10);
    *number = (uint32_t)value;
    *rest = end;
    return text[0] >= '0' && text[0] <= '9' && value <= most;
}

bool read_number(const char *text, uint32_t most, uint32_t *number)
{
    const char *rest;
    return take_number(text, most, number, &rest) && *rest == '\0';
}

#define COMMAND "the command's first dword"
#define EVENT "the event's position in the run"

static const struct meaning meanings[] = {
    {MPL_TOO_LONG, "over 16,384 dwords", "always 0"},
    {MPL_NO_END, "batch used up before END", "its dwords"},
    {MPL_UNKNOWN_COMMAND, "header's type and opcodes not in the table", COMMAND},
    {MPL_LENGTH_FIELD, "length field not allowed", COMMAND},
    {MPL_RUNS_PAST, "command runs past the batch", COMMAND},
    {MPL_MUST_BE_ZERO, "a must-be-zero bit is set", "the first such dword"},
    {MPL_LOAD_FIELDS, "load length or address not a multiple of 32, or descriptor length outside 32 to 2,048", "the first such dword"},
    {MPL_ORDER, "command out of order, or descriptor index not below the count last loaded", COMMAND},
    {MPL_TOO_LARGE, "a VFE exceeds the capacity, or a CURBE load the CURBE size in force", COMMAND},
    {MPL_RECORD_ROOM, "fewer than 16 words of record buffer per command", "dwords read"},
    {MPL_PART_OF_A_DWORD, "batch not a multiple of 4 bytes", "its whole dwords"},
    {MPL_UNKNOWN_CHIP, "chip neither 6 nor 7", "always 0"},
    {MPL_AFTER_ANSWER, "a chunk offered after an answer was given", "always 0"},
    {MPL_FEW_STATES, "fewer state bytes than objects", "always 0"},
    {MPL_NO_SUCH_OBJECT, "no such object", EVENT},
    {MPL_NOT_WAITING, "start of an object that is not waiting", EVENT},
    {MPL_NOT_RUNNING, "finish of an object that is not running", EVENT},
    {MPL_STALLS, "start of an object that uses a scoreboard of type 0, and an earlier one is in state 0", EVENT},
    {MPL_WAITS, "start of an object that waits", EVENT},
};

static const struct meaning unknown = {0, "a number that this shim does not know", "unknown"};

const struct meaning *meaning_of(uint64_t number)
{
    for (size_t i = 0; i < sizeof meanings / sizeof meanings[0]; i++)
        if (meanings[i].number == number)
            return &meanings[i];
    return &unknown;
}

void print_refused(const char *check, uint64_t number, uint64_t place, const struct meaning *meaning)
{
    printf("%s: number %" PRIu64 ", place %" PRIu64 ": %s; place: %s", check, number, place, meaning->words, meaning->place);
}

void print_batch(const struct mpl_batch *batch)
{
    if (batch->number == MPL_ACCEPTED)
        printf("batch: number 0, place %" PRIu64 ": accepted, %" PRIu64 " commands, %" PRIu64 " dwords", batch->place,
               batch->commands, batch->dwords);
    else
        print_refused("batch", batch->number, batch->place, meaning_of(batch->number));
    putchar('\n');
}
