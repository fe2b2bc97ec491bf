/*
 * Fidhaqooban: timing sheets judged by response-time equations with faults.
 *
 * A sheet is the bytes of docs/FORMAT.md: a header of 3 bytes, or of 7 where the processor is shared, and 9 bytes for
 * each of 1 to 8 tasks.
 * Every function answers any bytes and any numbers, and always returns. Each is proved to give the answer
 * that its comment says (docs/promises/fidhaqooban.md), for a caller who keeps to the three points below, which
 * nothing proves:
 *
 *   - a pointer is not null and is valid for the length beside it, even where that length is 0;
 *   - `out` overlaps no input;
 *   - nobody else writes the lent bytes before the call returns.
 *
 * The answer of a refused call is the number of the first rule broken, in the order in which the rules
 * are tried (enum fq_refusal); where the answer is an int64_t, that number with a minus sign. A refused call
 * changes no byte of `out`; one that is not changes the bytes that it writes and none after them.
 *
 * Memory and time: no heap and no state. The archive needs memcpy and, on x86-64, memset from outside (tests/tree/symbols.txt) and
 * calls nothing else. FQ_STACK_BYTES is more than any call was measured to take; no theorem bounds the stack.
 * The x86-64 code uses the SSE registers and, in some functions, the 128 bytes below the stack pointer (the red zone), so
 * whoever calls it where the first are not saved, or where an interrupt may write the second (a kernel, an interrupt
 * handler), saves the first and switches to a stack of its own. fq_judge, fq_write, fq_rewrite, fq_record and fq_grant take about a
 * microsecond, fq_mend a few; fq_response, fq_slack, fq_verdict, fq_times, fq_assured_response, fq_release,
 * and fq_cores with up to 32 verdicts, microseconds to milliseconds; fq_least_interval, fq_next, fq_list, fq_assured_next and
 * fq_assured_list microseconds to some tens of milliseconds, for all 40320 choices of eight tasks too
 * (docs/PERFORMANCE.md has the slowest sheets).
 * Where the lowest task, of priority 1, is late, no choice passes and none is assured, and the next choices and the
 * lists say so from that one response.
 *
 * Build the library with `rt lib` in crates/fidhaqooban and link crates/fidhaqooban/out/libfidhaqooban.a (x86-64).
 */
#ifndef FIDHAQOOBAN_H
#define FIDHAQOOBAN_H

#include <stddef.h>
#include <stdint.h>

#ifdef __cplusplus
extern "C" {
#endif

/* The version of this header and library; `./desk --version` prints the same. */
#define FQ_VERSION "1.17.0"

/*
 * What a refused call gives, in the order in which the rules are tried: the number of the first rule broken,
 * with a minus sign where the answer is an int64_t.
 */
enum fq_refusal {
    FQ_SHORT_SHEET = 1,         /* the sheet has fewer than 3 bytes, or, tried after 3, fewer than 7 in the new edition */
    FQ_BAD_COUNT = 2,           /* the count is 0 or above 8 */
    FQ_RESERVED_BITS = 3,       /* the reserved bits are above 1, the number of the new edition */
    FQ_BAD_LENGTH = 4,          /* the length is not 3 + 9 x count, or 7 + 9 x count in the new edition */
    FQ_NO_INTERVAL = 5,         /* the fault interval is 0 */
    FQ_BAD_SHARE = 18,          /* the share is 0 or not below the round, in the new edition */
    FQ_BAD_COST = 6,            /* a cost is 0 or above its deadline */
    FQ_BAD_BACKUP = 7,          /* a backup is 0 or above its deadline */
    FQ_BAD_DEADLINE = 8,        /* a deadline is above its period */
    FQ_BAD_PRIORITY = 9,        /* a priority is outside 1 to the count, or an earlier record has it */
    FQ_BAD_FAULT_PRIORITY = 10, /* a fault priority is outside 1 to the record's own priority */
    FQ_SHARED_PROCESSOR = 19,   /* logs are replayed, records checked, choices assured and cores given for the whole processor only */
    FQ_BAD_CORES = 23,          /* the number of cores is not 1 to 4 */
    FQ_DIFFERENT_COUNTS = 24,   /* the sheet in use and the candidate have different counts */
    FQ_BAD_PLACE = 12,          /* the record place asked for, or a protected place, is not below the count */
    FQ_BAD_CHOICE = 13,         /* the choice to go on after is neither 0 nor allowed */
    FQ_ODD_LOG = 14,            /* a log has an odd number of bytes, or a record one that is no multiple of three */
    FQ_STRANGE_BIT = 15,        /* a tick has a release bit above the count, or one of the seven other bits set */
    FQ_EARLY_RELEASE = 16,      /* a release sooner than its period after that task's last */
    FQ_EARLY_FAULT = 17,        /* a fault sooner than the fault interval after the last */
    FQ_BAD_STARTS = 20,         /* a start table that breaks the rules of fq_grant, or a holder who is no user */
    FQ_INSIDE_A_JOB = 21,       /* a lock is asked for while a started job runs */
    FQ_BAD_REQUEST = 25,        /* a resource above 7, a length of 0 or a priority that is not among the users */
    FQ_HELD = 22,               /* the resource asked for is held already, by anyone */
    FQ_SHORT_OUTPUT = 11        /* the lent output is shorter than what is to be written: tried last */
};

/* More stack than any call was measured to take, in bytes (bench/run measures it, for the archive of this machine). */
#define FQ_STACK_BYTES 4096

/* The longest sheet, eight tasks on a shared processor, and the longest list, all 8! choices of such a sheet, in bytes. */
#define FQ_SHEET_BYTES 79
#define FQ_LIST_BYTES 161280

/* The most tasks of a sheet, which fq_cores gives a byte each, and the most cores of a box. */
#define FQ_MOST_TASKS 8
#define FQ_MOST_CORES 4

/* The counts of fq_replay: ticks of the first three kinds, which are all ticks, and jobs; those released are finished, missed or unfinished. */
enum fq_count {
    FQ_FIRST_ATTEMPTS,
    FQ_BACKUPS,
    FQ_IDLING,
    FQ_RELEASED,
    FQ_FINISHED,
    FQ_MISSED,
    FQ_UNFINISHED,
    FQ_COUNTS
};

/* How many numbers fq_grant takes for each job in `starts`, and how many bytes in `resources`. */
#define FQ_JOB_NUMBERS 2
#define FQ_RESOURCES_BYTES 16

/* What a change of fq_mend is made to. */
enum fq_field {
    FQ_LENGTH,
    FQ_DEADLINE,
    FQ_FAULT_PRIORITY
};

/* How many numbers fq_mend writes for each change, and how many there are room for at the most: 17 changes after their number. */
#define FQ_CHANGE_NUMBERS 4
#define FQ_CHANGES_NUMBERS 69

/* How many numbers fq_times writes for each record, and for eight. */
#define FQ_TIME_NUMBERS 3
#define FQ_TIMES_NUMBERS 24

/* How many numbers fq_write takes for each record: cost, backup, deadline, period, priority, fault priority. */
#define FQ_RECORD_NUMBERS 6

/* 0 where the sheet is good, or the refusal (1 to 10 or 18; no minus sign). */
uint8_t fq_judge(const uint8_t *sheet, size_t len);

/*
 * Writes the sheet of a count, an interval and six numbers for each record: cost, backup, deadline,
 * period, priority, fault priority. A number that is not there counts as 0, numbers after 6 x count are
 * ignored, and a priority or fault priority above 255 counts as 255. `fields_len` is how many numbers
 * there are, not how many bytes they take.
 * Answer: how many bytes were written (3 + 9 x count), or minus the refusal (2, 5 to 11).
 */
int64_t fq_write(uint8_t count, uint16_t interval, const uint16_t *fields, size_t fields_len,
                 uint8_t *out, size_t out_len);

/*
 * The same for a processor that is shared: of each `round` ticks `share` are ours. A round and a share of 1 stand for
 * the whole processor, and the answer is that of fq_write.
 * Answer: how many bytes were written (7 + 9 x count), or minus the refusal (2, 5, 18, 6 to 11).
 */
int64_t fq_write_shared(uint8_t count, uint16_t interval, uint16_t round, uint16_t share, const uint16_t *fields,
                        size_t fields_len, uint8_t *out, size_t out_len);

/*
 * Reads a sheet and writes it again; a good sheet comes back as the same bytes.
 * Answer: how many bytes were written (len), or minus the refusal (1 to 11 or 18).
 */
int64_t fq_rewrite(const uint8_t *sheet, size_t len, uint8_t *out, size_t out_len);

/*
 * Where in the sheet the nine bytes of the record at a place (from 0) start.
 * Answer: 3 + 9 x place, or 7 + 9 x place in the new edition, or minus the refusal (1 to 10, 12 or 18).
 */
int64_t fq_record(const uint8_t *sheet, size_t len, size_t place);

/*
 * The worst-case response time of the record at a place (from 0), under the sheet's own interval and
 * fault priorities.
 * Answer: the least time that the equations allow within the deadline, 0 where the task is late, or minus
 * the refusal (1 to 10, 12 or 18).
 */
int64_t fq_response(const uint8_t *sheet, size_t len, size_t place);

/*
 * The slack of the record at a place (from 0): its deadline less its worst-case response time, which is
 * searched for up to 65535. It is negative where the task is late and 0 at an exact fit.
 * Answer: 1 with the slack in out[0]; 0 where there is no response time up to 65535, so no figure, and the
 * task is late; or minus the refusal (1 to 10, 12 or 18, and last 11 where out_len is 0). `out` changes in the first
 * case only. `out_len` is how many numbers have room.
 */
int64_t fq_slack(const uint8_t *sheet, size_t len, size_t place, int32_t *out, size_t out_len);

/*
 * 1 where the sheet passes (no task is late), 0 where it does not, or minus the refusal (1 to 10 or 18).
 * For the whole processor with each q at its p, 1 says that no log which fq_replay accepts misses a job; under
 * lowered fault priorities one can (docs/RUNS.md).
 */
int64_t fq_verdict(const uint8_t *sheet, size_t len);

/*
 * Times, slacks and verdict in one call, each time found once. For each record in record order, three numbers: its
 * response time as fq_response gives it, 0 where the task is late; 1 where its slack has a figure and 0 where not;
 * the slack as fq_slack gives it, or 0.
 * Answer: that of fq_verdict, 1 where the sheet passes and 0 where it does not, or minus the refusal (1 to 10 or 18, and
 * last 11 where out_len is below 3 x count). `out_len` is how many numbers have room.
 */
int64_t fq_times(const uint8_t *sheet, size_t len, int32_t *out, size_t out_len);

/*
 * The least fault interval, 1 to 65535, at which the sheet passes with its own fault priorities.
 * Answer: the interval, 0 where there is none, or minus the refusal (1 to 10 or 18).
 */
int64_t fq_least_interval(const uint8_t *sheet, size_t len);

/*
 * The next choice of fault priorities under which the sheet passes, after any allowed choice. A choice is a
 * number of 32 bits: four bits for each record in record order, the first record's highest, the rest zero;
 * with three records, fault priorities 3, 2 and 1 are 0x32100000. 0 stands before the first choice.
 * Answer: the choice, 0 at the end, or minus the refusal (1 to 10, 13 or 18).
 */
int64_t fq_next(const uint8_t *sheet, size_t len, uint32_t after);

/*
 * Writes every choice under which the sheet passes, ascending, four bytes each: the number of fq_next, its
 * first byte highest.
 * Answer: how many choices were written, or minus the refusal (1 to 11 or 18).
 */
int64_t fq_list(const uint8_t *sheet, size_t len, uint8_t *out, size_t out_len);

/*
 * The assured time of the record at a place (from 0), under the sheet's own interval and fault priorities: by
 * the assured equation of docs/RUNS.md, which is proved of runs. Where every task has one, no job misses its
 * deadline in any log that fq_replay accepts, and each is done within its task's assured time. For the whole
 * processor only.
 * Answer: the time, 0 where the task has none within its deadline, or minus the refusal (1 to 10, 18, 19, and
 * last 12).
 */
int64_t fq_assured_response(const uint8_t *sheet, size_t len, size_t place);

/*
 * The next choice of fault priorities under which every task has an assured time, after any allowed choice, in
 * the numbers of fq_next. It need not be one that fq_next gives: a choice can pass and not be assured, or be
 * assured and not pass.
 * Answer: the choice, 0 at the end, or minus the refusal (1 to 10, 18, 19, and last 13).
 */
int64_t fq_assured_next(const uint8_t *sheet, size_t len, uint32_t after);

/*
 * Writes every such choice, ascending, as fq_list writes the passing ones.
 * Answer: how many choices were written, or minus the refusal (1 to 10, 18, 19, and last 11).
 */
int64_t fq_assured_list(const uint8_t *sheet, size_t len, uint8_t *out, size_t out_len);

/*
 * Replays a log of the box: two bytes a tick, first the releases, one bit for each priority with priority 8
 * as the most significant bit, then the fault bit as the most significant and seven zeros. docs/REPLAY.md
 * follows a log tick by tick. The log is judged whole, rules 14 to 17, before anything is counted.
 * Answer: 0 with FQ_COUNTS numbers in `counts`, in the order of enum fq_count, or minus the refusal (1 to 10,
 * 18, 19, 14 to 17, and last 11 where there is no room for them). `counts_len` is how many numbers have room; those
 * after the first FQ_COUNTS are not touched. A count is taken modulo 2^64, which no log below 2^61 bytes reaches.
 */
int64_t fq_replay(const uint8_t *sheet, size_t len, const uint8_t *log, size_t log_len, uint64_t *counts,
                  size_t counts_len);

/*
 * Checks a supplier's own run record: three bytes a tick, the two of a log and then what ran, the priority of the task,
 * 0 for idle, with the top bit set for a backup. The record is judged whole, 14 for a length that is not a multiple of
 * three and then rules 15 to 17, before anything is compared.
 * Answer: how many ticks from the start show what the rules of fq_replay say, so record_len / 3 exactly if the record is
 * accepted and otherwise the first tick, from 0, that differs; or minus the refusal (1 to 10, 18, 19, 14 to 17).
 */
int64_t fq_check(const uint8_t *sheet, size_t len, const uint8_t *record, size_t record_len);

/*
 * Whether a sporadic task may have a resource beside started jobs: whether the length that it asks for fits into the free
 * ticks before the next start that uses the resource, and no other holder's ceiling forbids it. That the resource is free again
 * by that start is the holder's to see to: it is, where the holder runs in enough of those free ticks (docs/LOCKS.md). No sheet
 * plays a part.
 *
 * The start table: a control period and `count` jobs (0 to 8), in any order. In every period each job starts at its offset,
 * whatever else goes on, and runs for its length. `starts` has two numbers for each job, its offset and its length; `uses` one
 * byte for each, the resources that it uses, resource r as bit r (bit 0 is the lowest). Lengths are not 0, each job ends within
 * the period, and no two overlap; one may start in the tick in which another ends.
 * The resources: `resources` has the users of resources 0 to 7, a byte each with priority p as bit p - 1, and then the
 * holders of 0 to 7, a priority or 0. A holder is one of the users.
 * The request: the task of `priority` asks at `time` for `resource`, for `length` ticks. Times count on past the period.
 *
 * A resource that a started job uses is critical. Its ceiling is above all tasks; that of any other is the highest priority among
 * its users, 0 where it has none. The request is granted exactly if the priority is above the ceiling of each resource that
 * another task holds and, for a critical resource, the length fits into the free time: the ticks from `time` up to the next start
 * of a job that uses the resource, in this period or the next, without those in which started jobs run. The margin is the free time
 * less the length, negative where it does not fit, and 0 for a resource that is not critical. docs/LOCKS.md draws an example.
 *
 * Numbers and bytes that are not there count as 0; those past the count and past the sixteenth are ignored. A `_len` is how many
 * numbers there are, not how many bytes they take.
 * Answer: 1 granted, 0 not, each with the margin in margin[0]; or minus the refusal (20, 21, 25, 22, and last 11 where
 * margin_len is 0), and then `margin` stays as it was. margin_len is how many numbers have room; only the first is written.
 */
int64_t fq_grant(uint32_t period, uint8_t count, const uint32_t *starts, size_t starts_len, const uint8_t *uses,
                 size_t uses_len, const uint8_t *resources, size_t resources_len, uint8_t priority, uint64_t time,
                 uint8_t resource, uint32_t length, int64_t *margin, size_t margin_len);

/*
 * Mends a hand-typed sheet by three changes and no others: bytes after the last record are cut, a deadline above its
 * period is brought down to the period, and a fault priority above the task's own, or zero, is brought to its own. All
 * are made before the sheet is judged. A good sheet comes back as the same bytes, without a change.
 * Answer: how many bytes of the mended sheet were written (at most FQ_SHEET_BYTES), or minus the refusal: the first rule
 * still broken (1 to 10 or 18), and last 11 where either output is shorter than what is to be written; then neither is
 * touched. `changes[0]` is how many changes there are, then four numbers each: place (0 for the length, then records
 * from 1), field (enum fq_field), old and new value; the cut first, then records by place, deadline before fault
 * priority. `changes_len` is how many numbers have room; FQ_CHANGES_NUMBERS are always enough. `out` and `changes` do not
 * overlap.
 */
int64_t fq_mend(const uint8_t *sheet, size_t len, uint8_t *out, size_t out_len, uint64_t *changes, size_t changes_len);

/*
 * Puts the records of a sheet on a box with several cores, which tasks never change: each record in its turn on the
 * lowest-numbered core where that core's tasks still pass, their priorities renumbered from 1 in their old order within
 * the core and each fault priority equal to the priority. Each core has its own faults, spaced by the sheet's interval; the
 * sheet's own fault priorities play no part.
 * Answer: 0 with each record's core, from 1, in `out`, a byte each in record order; the first record, from 1, that fits
 * none, with `out` as it was; or minus the refusal (1 to 10, 18, 19 for a shared processor, 23 where `cores` is not 1 to
 * FQ_MOST_CORES, and last 11, only where each record has a core and there is no room for them). Bytes after those of the
 * records are not touched.
 */
int64_t fq_cores(const uint8_t *sheet, size_t len, uint8_t cores, uint8_t *out, size_t out_len);

/*
 * Which of two sheets a box loads: the one in use or a candidate. Tasks are matched by place. `protected_places` has one bit
 * for each place whose task may not get slower, place 0 as the lowest bit. The candidate is to be loaded exactly if it passes
 * and at no protected place its response is longer than that of the sheet in use. A task late in use counts as longer than any
 * time; a candidate that does not pass is never loaded. Each sheet is judged under its own fault interval, share and fault
 * priorities, and the two may be of different editions.
 * Answer: 1 load the candidate, 0 keep the one in use, or minus the refusal: that of the sheet in use, then that of the
 * candidate (1 to 10 or 18 each), then 24 and 12. Refused, the box keeps what it has.
 */
int64_t fq_release(const uint8_t *in_use, size_t in_use_len, const uint8_t *candidate, size_t candidate_len,
                   uint8_t protected_places);

#ifdef __cplusplus
}
#endif

#endif
