/* One call made twice, to the library and to the plain desk, and compared. */
#include "checks.h"

#include "../plain/plain.h"

#include <string.h>

/* Room for what calls write, with a number in front of it and some behind. */
enum { COUNTS_ROOM = 16, SLACKS_ROOM = 4, TIMES_ROOM = FQ_TIMES_NUMBERS + 2, CORES_ROOM = FQ_MOST_TASKS + 8 };

/* Checks a call that was given numbers to write: the output, and that the numbers are as they were. */
static int64_t settle_writing(struct comparison *comparison, const struct call *call, const struct writing *given, size_t out_len)
{
    settle_lent(comparison, call, out_len);
    settle(comparison, call, "numbers", memcmp(given->numbers, call->writing->numbers, sizeof given->numbers) == 0);
    return call->plain;
}

/* Compares the writing of a table; the library gets a copy of the numbers, which must not change. */
int64_t check_write(struct comparison *comparison, const struct writing *writing, size_t out_len)
{
    struct writing given = *writing;
    struct call call = {.function = "fq_write", .argument = out_len, .writing = writing};
    lend(comparison, out_len);
    call.library = fq_write(given.count, given.interval, given.numbers, given.given,
                            comparison->lent_to_library + MARGIN, out_len);
    call.plain = plain_write(writing->count, writing->interval, writing->numbers, writing->given,
                             comparison->lent_to_plain + MARGIN, out_len);
    return settle_writing(comparison, &call, &given, out_len);
}

/* Compares the writing of a table with its share, in the same way. */
int64_t check_write_shared(struct comparison *comparison, const struct writing *writing, size_t out_len)
{
    struct writing given = *writing;
    struct call call = {.function = "fq_write_shared", .argument = out_len, .writing = writing};
    lend(comparison, out_len);
    call.library = fq_write_shared(given.count, given.interval, given.round, given.share, given.numbers, given.given,
                                   comparison->lent_to_library + MARGIN, out_len);
    call.plain = plain_write_shared(writing->count, writing->interval, writing->round, writing->share, writing->numbers,
                                    writing->given, comparison->lent_to_plain + MARGIN, out_len);
    return settle_writing(comparison, &call, &given, out_len);
}

/* A function that writes what it makes of a sheet into an output. */
typedef int64_t writing_call(const uint8_t *sheet, size_t len, uint8_t *out, size_t out_len);

/* Compares such a function on an output of a length. */
static int64_t check_output(struct comparison *comparison, const char *function, writing_call *library,
                            writing_call *plain, size_t out_len)
{
    const uint8_t *sheet = laid(comparison);
    size_t length = comparison->sheet_length;
    struct call call = {.function = function, .argument = out_len};
    lend(comparison, out_len);
    call.library = library(sheet, length, comparison->lent_to_library + MARGIN, out_len);
    call.plain = plain(sheet, length, comparison->lent_to_plain + MARGIN, out_len);
    settle_lent(comparison, &call, out_len);
    return call.plain;
}

/* Compares the rewriting of the sheet. */
int64_t check_rewrite(struct comparison *comparison, size_t out_len)
{
    return check_output(comparison, "fq_rewrite", fq_rewrite, plain_rewrite, out_len);
}

/* Compares the list of choices by a rule. */
int64_t check_list(struct comparison *comparison, enum rule rule, size_t out_len)
{
    return rule == PASSING ? check_output(comparison, "fq_list", fq_list, plain_list, out_len)
                           : check_output(comparison, "fq_assured_list", fq_assured_list, plain_assured_list, out_len);
}

/* A function that answers for the record at a place. */
typedef int64_t place_call(const uint8_t *sheet, size_t len, size_t place);

/* Compares such a function at a place. */
static int64_t check_place(struct comparison *comparison, const char *function, place_call *library,
                           place_call *plain, size_t place)
{
    const uint8_t *sheet = laid(comparison);
    struct call call = {.function = function, .argument = place};
    call.library = library(sheet, comparison->sheet_length, place);
    call.plain = plain(sheet, comparison->sheet_length, place);
    settle_call(comparison, &call);
    return call.plain;
}

/* Compares where the record at a place starts. */
int64_t check_record(struct comparison *comparison, size_t place)
{
    return check_place(comparison, "fq_record", fq_record, plain_record, place);
}

/* Compares the time at a place by a rule. */
int64_t check_response(struct comparison *comparison, enum rule rule, size_t place)
{
    return rule == PASSING ? check_place(comparison, "fq_response", fq_response, plain_response, place)
                           : check_place(comparison, "fq_assured_response", fq_assured_response, plain_assured_response, place);
}

/* Compares the slack at a place, in an output with room for so many figures. */
int64_t check_slack(struct comparison *comparison, size_t place, size_t out_len)
{
    int32_t before[SLACKS_ROOM], library[SLACKS_ROOM], plain[SLACKS_ROOM];
    const uint8_t *sheet = laid(comparison);
    struct call call = {.function = "fq_slack", .argument = place};
    struct copies copies = lend_copies(comparison, before, library, plain, sizeof before);
    call.library = fq_slack(sheet, comparison->sheet_length, place, library + 1, out_len);
    call.plain = plain_slack(sheet, comparison->sheet_length, place, plain + 1, out_len);
    settle_call(comparison, &call);
    settle_copies(comparison, &call, "slack", &copies, call.plain == 1);
    return call.plain;
}

/* Compares every time and slack and the verdict, in an output with room for so many numbers. */
int64_t check_every_time(struct comparison *comparison, size_t out_len)
{
    int32_t before[TIMES_ROOM], library[TIMES_ROOM], plain[TIMES_ROOM];
    const uint8_t *sheet = laid(comparison);
    struct call call = {.function = "fq_times", .argument = out_len};
    struct copies copies = lend_copies(comparison, before, library, plain, sizeof before);
    call.library = fq_times(sheet, comparison->sheet_length, library + 1, out_len);
    call.plain = plain_times(sheet, comparison->sheet_length, plain + 1, out_len);
    settle_call(comparison, &call);
    settle_copies(comparison, &call, "times", &copies, call.plain >= 0);
    return call.plain;
}

/* Compares the library's answer to a question about the whole sheet with the expected one. */
static void check_whole(struct comparison *comparison, const char *function, uint64_t argument,
                        int64_t library, int64_t expected)
{
    struct call call = {.function = function, .argument = argument, .library = library, .plain = expected};
    settle_call(comparison, &call);
}

/* Compares the judgement of the sheet. */
uint8_t check_judge(struct comparison *comparison)
{
    uint8_t expected = plain_judge(laid(comparison), comparison->sheet_length);
    check_whole(comparison, "fq_judge", 0, fq_judge(laid(comparison), comparison->sheet_length), expected);
    return expected;
}

/* Compares the verdict. */
int64_t check_verdict(struct comparison *comparison)
{
    int64_t expected = plain_verdict(laid(comparison), comparison->sheet_length);
    check_whole(comparison, "fq_verdict", 0, fq_verdict(laid(comparison), comparison->sheet_length), expected);
    return expected;
}

/* Compares the least interval. */
int64_t check_least_interval(struct comparison *comparison)
{
    int64_t expected = plain_least_interval(laid(comparison), comparison->sheet_length);
    check_interval(comparison, expected);
    return expected;
}

/* Compares the library's least interval with what is already known. */
void check_interval(struct comparison *comparison, int64_t expected)
{
    check_whole(comparison, "fq_least_interval", 0,
                fq_least_interval(laid(comparison), comparison->sheet_length), expected);
}

/* Compares the step after a choice, allowed or not, by a rule. */
int64_t check_next(struct comparison *comparison, enum rule rule, uint32_t after)
{
    const uint8_t *sheet = laid(comparison);
    size_t length = comparison->sheet_length;
    int64_t expected = rule == PASSING ? plain_next(sheet, length, after) : plain_assured_next(sheet, length, after);
    check_step(comparison, rule, after, expected);
    return expected;
}

/* Compares one step of the library by a rule with what is already known. */
void check_step(struct comparison *comparison, enum rule rule, uint32_t after, int64_t expected)
{
    const uint8_t *sheet = laid(comparison);
    size_t length = comparison->sheet_length;
    if (rule == PASSING) {
        check_whole(comparison, "fq_next", after, fq_next(sheet, length, after), expected);
    } else {
        check_whole(comparison, "fq_assured_next", after, fq_assured_next(sheet, length, after), expected);
    }
}

/* Compares the replay of a log; the library gets a copy of it, which must not change, and room for so many counts. */
int64_t check_replay(struct comparison *comparison, const struct log *log, size_t counts_len)
{
    uint64_t before[COUNTS_ROOM], library[COUNTS_ROOM], plain[COUNTS_ROOM];
    struct log given = *log;
    struct call call = {.function = "fq_replay", .argument = counts_len, .log = log};
    struct copies copies = lend_copies(comparison, before, library, plain, sizeof before);
    call.library = fq_replay(laid(comparison), comparison->sheet_length, given.bytes, given.length,
                             library + 1, counts_len);
    call.plain = plain_replay(laid(comparison), comparison->sheet_length, log->bytes, log->length, plain + 1,
                              counts_len);
    settle_call(comparison, &call);
    settle(comparison, &call, "log", memcmp(&given, log, sizeof given) == 0);
    settle_copies(comparison, &call, "counts", &copies, call.plain >= 0);
    return call.plain;
}

/* Compares the check of a record; the library gets a copy of it, which must not change. */
int64_t check_supplied(struct comparison *comparison, const struct log *record)
{
    struct log given = *record;
    struct call call = {.function = "fq_check", .log = record};
    call.library = fq_check(laid(comparison), comparison->sheet_length, given.bytes, given.length);
    call.plain = plain_check(laid(comparison), comparison->sheet_length, record->bytes, record->length);
    settle_call(comparison, &call);
    settle(comparison, &call, "record", memcmp(&given, record, sizeof given) == 0);
    return call.plain;
}

/* Compares which of two sheets is to be loaded: the one laid is in use, and the library gets a copy of the candidate, which must not change. */
int64_t check_release(struct comparison *comparison, const struct sheet *candidate, uint8_t protected_places)
{
    struct sheet given = *candidate;
    struct call call = {.function = "fq_release", .argument = protected_places, .candidate = candidate};
    call.library = fq_release(laid(comparison), comparison->sheet_length, given.bytes, given.length, protected_places);
    call.plain = plain_release(laid(comparison), comparison->sheet_length, candidate->bytes, candidate->length, protected_places);
    settle_call(comparison, &call);
    settle(comparison, &call, "candidate", memcmp(&given, candidate, sizeof given) == 0);
    return call.plain;
}

/* Asks the library for a lock, with room for so many margins. */
static int64_t grant(const struct asking *asking, int64_t *margin, size_t margin_len)
{
    return fq_grant(asking->period, asking->count, asking->starts, asking->starts_len, asking->uses, asking->uses_len,
                    asking->resources, asking->resources_len, asking->priority, asking->time, asking->resource,
                    asking->length, margin, margin_len);
}

/* Compares the answer to a request; the library gets a copy of the numbers, which must not change. The first margin is given back. */
int64_t check_grant(struct comparison *comparison, const struct asking *asking, size_t margin_len, int64_t *margin)
{
    int64_t before[MARGINS_ROOM], library[MARGINS_ROOM], plain[MARGINS_ROOM];
    struct asking given = *asking;
    struct call call = {.function = "fq_grant", .argument = margin_len, .asking = asking};
    struct copies copies = lend_copies(comparison, before, library, plain, sizeof before);
    call.library = grant(&given, library + 1, margin_len);
    call.plain = plain_grant(asking->period, asking->count, asking->starts, asking->starts_len, asking->uses, asking->uses_len,
                             asking->resources, asking->resources_len, asking->priority, asking->time, asking->resource,
                             asking->length, plain + 1, margin_len);
    settle(comparison, &call, "answer", call.library == call.plain);
    settle(comparison, &call, "numbers", memcmp(&given, asking, sizeof given) == 0);
    settle_copies(comparison, &call, "margin", &copies, call.plain >= 0);
    *margin = plain[1];
    return call.plain;
}

/* Compares an answer and its margin with what is already known. */
void check_granting(struct comparison *comparison, const struct asking *asking, int64_t answer, int64_t margin)
{
    int64_t found = 0;
    struct call call = {.function = "fq_grant", .argument = 1, .plain = answer, .asking = asking};
    call.library = grant(asking, &found, 1);
    settle(comparison, &call, "answer", call.library == answer);
    settle(comparison, &call, "margin", found == margin);
}

/* Compares the mending of the sheet, in an output of a length and room for so many numbers of the changes. */
int64_t check_mend(struct comparison *comparison, size_t out_len, size_t changes_len)
{
    uint64_t before[CHANGES_ROOM], library[CHANGES_ROOM], *plain = comparison->changes_of_plain;
    const uint8_t *sheet = laid(comparison);
    struct call call = {.function = "fq_mend", .argument = changes_len};
    lend(comparison, out_len);
    struct copies copies = lend_copies(comparison, before, library, plain, sizeof before);
    call.library = fq_mend(sheet, comparison->sheet_length, comparison->lent_to_library + MARGIN, out_len, library + 1, changes_len);
    call.plain = plain_mend(sheet, comparison->sheet_length, comparison->lent_to_plain + MARGIN, out_len, plain + 1, changes_len);
    settle_lent(comparison, &call, out_len);
    settle_copies(comparison, &call, "changes", &copies, call.plain >= 0);
    return call.plain;
}

/* Compares the cores of the sheet's records, in an output with room for so many. */
int64_t check_cores(struct comparison *comparison, uint8_t cores, size_t out_len)
{
    uint8_t before[CORES_ROOM], library[CORES_ROOM], *plain = comparison->lent_to_plain;
    struct call call = {.function = "fq_cores", .argument = cores};
    struct copies copies = lend_copies(comparison, before, library, plain, sizeof before);
    call.library = fq_cores(laid(comparison), comparison->sheet_length, cores, library + 1, out_len);
    call.plain = plain_cores(laid(comparison), comparison->sheet_length, cores, plain + 1, out_len);
    settle_call(comparison, &call);
    settle_copies(comparison, &call, "cores", &copies, call.plain == 0);
    return call.plain;
}

/* The first number that the plain desk wrote. */
uint64_t listed_changes(const struct comparison *comparison)
{
    return comparison->changes_of_plain[1];
}

/* The byte at the place, after the one in front of the output. */
uint8_t core_at(const struct comparison *comparison, size_t place)
{
    return comparison->lent_to_plain[1 + place];
}

/* Puts the four bytes of a choice together, the first one highest. */
uint32_t listed_choice(const struct comparison *comparison, size_t index)
{
    const uint8_t *bytes = comparison->lent_to_plain + MARGIN + CHOICE_BYTES * index;
    return (uint32_t)bytes[0] << 24 | (uint32_t)bytes[1] << 16 | (uint32_t)bytes[2] << 8 | bytes[3];
}
