/* The state of the comparison, what is lent to a call, and how its answers are compared. */
#include "comparison.h"

#include <inttypes.h>
#include <stdio.h>
#include <string.h>

enum { MOST_REPORTS = 20 };

static const char *const KINDS[] = {
    [CODEC] = "codec", [ANALYSIS] = "analysis", [REPLAY] = "replay", [LOCK] = "lock", [MEND] = "mend", [CORES] = "cores", [RELEASE] = "release"};

/* Prints what was given to be written: count, interval, round, share and the numbers that are there, in hexadecimal. */
static void print_writing(const struct writing *writing)
{
    printf("table %02x %04x %04x %04x", (unsigned)writing->count, (unsigned)writing->interval, (unsigned)writing->round,
           (unsigned)writing->share);
    for (size_t index = 0; index < writing->given; index++) {
        printf(" %04x", (unsigned)writing->numbers[index]);
    }
}

/* Prints bytes in hexadecimal. */
static void print_bytes(const char *name, const uint8_t *bytes, size_t length)
{
    printf("%s ", name);
    for (size_t index = 0; index < length; index++) {
        printf("%02x", (unsigned)bytes[index]);
    }
}

/* Prints numbers of 32 bits in decimal. */
static void print_numbers(const char *name, const uint32_t *numbers, size_t length)
{
    printf("%s", name);
    for (size_t index = 0; index < length; index++) {
        printf(" %" PRIu32, numbers[index]);
    }
}

/* Prints what was asked: the start table, the resources and the request. */
static void print_asking(const struct asking *asking)
{
    printf("period %" PRIu32 ", count %u", asking->period, (unsigned)asking->count);
    print_numbers(", starts", asking->starts, asking->starts_len);
    print_bytes(", uses", asking->uses, asking->uses_len);
    print_bytes(", resources", asking->resources, asking->resources_len);
    printf(", priority %u, time %" PRIu64 ", resource %u, length %" PRIu32, (unsigned)asking->priority, asking->time,
           (unsigned)asking->resource, asking->length);
}

/* Prints what was given to a call: what is written or asked for, or the sheet; and a log, a record or a candidate beside it. */
static void print_given(const struct comparison *comparison, const struct call *call)
{
    if (call->writing != NULL) {
        print_writing(call->writing);
    } else if (call->asking != NULL) {
        print_asking(call->asking);
    } else {
        print_bytes("sheet", comparison->input_before + comparison->sheet_start, comparison->sheet_length);
    }
    if (call->log != NULL) {
        print_bytes(", log or record", call->log->bytes, call->log->length);
    }
    if (call->candidate != NULL) {
        print_bytes(", candidate", call->candidate->bytes, call->candidate->length);
    }
}

/* Prints a difference with both answers, what was given and how to repeat it. */
static void print_difference(const struct comparison *comparison, const struct call *call, const char *what)
{
    printf("difference in %s, %s: library %" PRId64 ", plain %" PRId64 ", argument %" PRIu64 ", ",
           call->function, what, call->library, call->plain, call->argument);
    print_given(comparison, call);
    printf(", seed %" PRIu64 " count %" PRIu64 ", %s round %" PRIu64 "\n", comparison->seed, comparison->count, KINDS[comparison->kind],
           comparison->round);
}

/* Prints no more differences than a reader needs. */
void settle(struct comparison *comparison, const struct call *call, const char *what, bool same)
{
    comparison->checks++;
    if (!same) {
        comparison->differences++;
    }
    if (!same && comparison->differences <= MOST_REPORTS) {
        print_difference(comparison, call, what);
    }
}

/* Puts a sheet that was changed back, so that the next call gets it as it was. */
void settle_call(struct comparison *comparison, const struct call *call)
{
    settle(comparison, call, "answer", call->library == call->plain);
    bool same = memcmp(comparison->input, comparison->input_before, INPUT_ROOM) == 0;
    settle(comparison, call, "input", same);
    if (!same) {
        memcpy(comparison->input, comparison->input_before, INPUT_ROOM);
    }
}

/* Fills no more than the output and its margins. */
void lend(struct comparison *comparison, size_t out_len)
{
    size_t total = MARGIN + out_len + MARGIN;
    random_bytes(&comparison->generator, comparison->lent_before, total);
    memcpy(comparison->lent_to_library, comparison->lent_before, total);
    memcpy(comparison->lent_to_plain, comparison->lent_before, total);
}

/* A refused call has to leave the output as it was besides. */
void settle_lent(struct comparison *comparison, const struct call *call, size_t out_len)
{
    const uint8_t *before = comparison->lent_before;
    const uint8_t *library = comparison->lent_to_library;
    size_t end = MARGIN + out_len;
    settle_call(comparison, call);
    settle(comparison, call, "output",
           memcmp(library + MARGIN, comparison->lent_to_plain + MARGIN, out_len) == 0);
    settle(comparison, call, "bytes before the output", memcmp(library, before, MARGIN) == 0);
    settle(comparison, call, "bytes after the output", memcmp(library + end, before + end, MARGIN) == 0);
    if (call->plain < 0) {
        settle(comparison, call, "output of a refused call", memcmp(library, before, end) == 0);
    }
}

/* The numbers are drawn byte by byte, whatever their width. */
struct copies lend_copies(struct comparison *comparison, void *before, void *library, void *plain, size_t size)
{
    random_bytes(&comparison->generator, before, size);
    memcpy(library, before, size);
    memcpy(plain, before, size);
    return (struct copies){before, library, plain, size};
}

/* The first number and the last ones of the copies lie outside of what the call was lent. */
void settle_copies(struct comparison *comparison, const struct call *call, const char *what, const struct copies *copies, bool is_written)
{
    settle(comparison, call, what, memcmp(copies->library, copies->plain, copies->size) == 0);
    if (!is_written) {
        settle(comparison, call, "room of a call that writes nothing", memcmp(copies->library, copies->before, copies->size) == 0);
    }
}

/* Draws the round's generator anew, so that a reported round can be repeated. */
void start_round(struct comparison *comparison, enum round_kind kind, uint64_t round)
{
    comparison->kind = kind;
    comparison->round = round;
    comparison->generator = generator_of(comparison->seed, kind, round);
}

/* Starts the sheet at a random place, so that no alignment is favoured. */
void lay_sheet(struct comparison *comparison, const uint8_t *bytes, size_t length)
{
    random_bytes(&comparison->generator, comparison->input, INPUT_ROOM);
    comparison->sheet_start = 1 + random_below(&comparison->generator, MARGIN);
    comparison->sheet_length = length;
    memcpy(comparison->input + comparison->sheet_start, bytes, length);
    memcpy(comparison->input_before, comparison->input, INPUT_ROOM);
}

/* The sheet lies in the input, after some random bytes. */
const uint8_t *laid(const struct comparison *comparison)
{
    return comparison->input + comparison->sheet_start;
}
