/*
 * The state of the comparison: the round it is in, the sheet and the room that it lends to the calls, and what was found so far; and how
 * one call's answers and all that lies around them are compared and counted.
 */
#ifndef COMPARISON_H
#define COMPARISON_H

#include "../inputs/locks.h"
#include "../inputs/logs.h"

enum {
    MARGIN = 16,
    MOST_GIVEN_NUMBERS = 64,
    INPUT_ROOM = SHEET_ROOM + 2 * MARGIN,
    LENT_ROOM = FQ_LIST_BYTES + 64 + 2 * MARGIN,
    CHANGES_ROOM = FQ_CHANGES_NUMBERS + 4
};

/* The kinds of rounds. */
enum round_kind { CODEC, ANALYSIS, REPLAY, LOCK, MEND, CORES, RELEASE };

/* The state of a whole run. */
struct comparison {
    uint64_t seed;
    uint64_t count;
    enum round_kind kind;
    uint64_t round;
    struct generator generator;
    uint64_t checks;
    uint64_t differences;
    size_t sheet_start;
    size_t sheet_length;
    uint8_t input[INPUT_ROOM];
    uint8_t input_before[INPUT_ROOM];
    uint8_t lent_before[LENT_ROOM];
    uint8_t lent_to_library[LENT_ROOM];
    uint8_t lent_to_plain[LENT_ROOM];
    uint64_t changes_of_plain[CHANGES_ROOM];
};

/* What fq_write_shared is given, and all but the share fq_write, apart from the output. */
struct writing {
    uint8_t count;
    uint16_t interval;
    uint16_t round;
    uint16_t share;
    size_t given;
    uint16_t numbers[MOST_GIVEN_NUMBERS];
};

/* One call with both its answers, and what was given to it beside the sheet, as a report of a difference shows it. */
struct call {
    const char *function;
    uint64_t argument;
    int64_t library;
    int64_t plain;
    const struct writing *writing;
    const struct log *log;
    const struct asking *asking;
    const struct sheet *candidate;
};

/* Random numbers lent to both sides, of any width: as they were, and as each side leaves them. */
struct copies {
    const void *before;
    void *library;
    void *plain;
    size_t size;
};

/* Starts a round of a kind, with its own generator. */
void start_round(struct comparison *comparison, enum round_kind kind, uint64_t round);

/* Lays a sheet between random bytes, where the checks find it. */
void lay_sheet(struct comparison *comparison, const uint8_t *bytes, size_t length);

/* The sheet as the calls get it. */
const uint8_t *laid(const struct comparison *comparison);

/* Lends both sides the same random bytes: a margin, the output and another margin. */
void lend(struct comparison *comparison, size_t out_len);

/* Fills numbers with random ones, and lends both sides a copy of them: numbers, the copies, all of one size in bytes. */
struct copies lend_copies(struct comparison *comparison, void *before, void *library, void *plain, size_t size);

/* Counts one check and, where it failed, the difference, which is printed if it is one of the first. */
void settle(struct comparison *comparison, const struct call *call, const char *what, bool same);

/* Checks the answers of a call, and that the sheet and the bytes around it are as they were. */
void settle_call(struct comparison *comparison, const struct call *call);

/* Checks a call that was lent an output: all that lies in it, and the margins before and after it. */
void settle_lent(struct comparison *comparison, const struct call *call, size_t out_len);

/* Checks that both sides left the same in their copies, and the library nothing new where it had nothing to write. */
void settle_copies(struct comparison *comparison, const struct call *call, const char *what, const struct copies *copies, bool is_written);

#endif
