/*
 * Measures how much stack each function of the library needs: it is called on a painted stack of its own, and the paint
 * that is left is counted. The code has no recursion and no frame of varying size, so a sheet that leads through every
 * branch shows the most: the everyday sheet at its own interval, where every choice passes, and at interval 1, where
 * every task is late.
 */
#include "sheets.h"

#include "../tests/format.h"

#include <stdio.h>
#include <string.h>
#include <ucontext.h>

/* The stack and its paint, how many numbers of a sheet are written, and room for a few choices. */
enum { STACK = 1 << 18, PAINT = 0xC5, FIELDS = FQ_MOST_TASKS * FQ_RECORD_NUMBERS, FEW = 10 * CHOICE_BYTES };

/* The stack of a call, the two that are switched between, and what the calls are given. */
static ucontext_t caller, callee;
static uint8_t stack[STACK];
static uint8_t sheet[FQ_SHEET_BYTES];
static uint8_t output[FQ_LIST_BYTES];
static const uint8_t log_bytes[] = {255, FAULT_BIT, 0, 0, 0, 0};
static const uint8_t record_bytes[] = {0, 0, 0, 255, FAULT_BIT, 8};
static uint64_t counts[FQ_COUNTS];
static uint64_t changes[FQ_CHANGES_NUMBERS];
static int32_t figure;
static int32_t times_numbers[FQ_TIMES_NUMBERS];
static const uint32_t starts[] = {5, 6, 20, 3};
static const uint8_t uses[] = {0, 1};
static const uint8_t resources[FQ_RESOURCES_BYTES] = {255, 255, 255, 255, 255, 255, 255, 255, 0, 1, 1, 1, 1, 1, 1, 1};
static int64_t margin;
static size_t length;
static struct sheet numbers;

/* One call each, with all that it is given. */
static void nothing(void) {}
static void judge(void) { fq_judge(sheet, length); }
static void write(void) { fq_write(numbers.count, numbers.interval, numbers.fields, FIELDS, output, sizeof output); }
static void write_shared(void) { fq_write_shared(numbers.count, numbers.interval, 9, 8, numbers.fields, FIELDS, output, sizeof output); }
static void rewrite(void) { fq_rewrite(sheet, length, output, sizeof output); }
static void record(void) { fq_record(sheet, length, 0); }
static void response(void) { fq_response(sheet, length, 0); }
static void slack(void) { fq_slack(sheet, length, 0, &figure, 1); }
static void verdict(void) { fq_verdict(sheet, length); }
static void times(void) { fq_times(sheet, length, times_numbers, FQ_TIMES_NUMBERS); }
static void least_interval(void) { fq_least_interval(sheet, length); }
static void next(void) { fq_next(sheet, length, 0); }
static void list(void) { fq_list(sheet, length, output, sizeof output); }
static void short_list(void) { fq_list(sheet, length, output, FEW); }
static void assured_response(void) { fq_assured_response(sheet, length, 0); }
static void assured_next(void) { fq_assured_next(sheet, length, 0); }
static void assured_list(void) { fq_assured_list(sheet, length, output, sizeof output); }
static void short_assured_list(void) { fq_assured_list(sheet, length, output, FEW); }
static void replay(void) { fq_replay(sheet, length, log_bytes, sizeof log_bytes, counts, FQ_COUNTS); }
static void cores(void) { fq_cores(sheet, length, FQ_MOST_CORES, output, sizeof output); }
static void check(void) { fq_check(sheet, length, record_bytes, sizeof record_bytes); }
static void release(void) { fq_release(sheet, length, sheet, length, 255); }
static void grant(void) { fq_grant(40, sizeof uses, starts, FQ_JOB_NUMBERS * sizeof uses, uses, sizeof uses, resources, sizeof resources, 1, 3, 0, 11, &margin, 1); }
static void mend(void) { fq_mend(sheet, sizeof sheet, output, sizeof output, changes, FQ_CHANGES_NUMBERS); }

/* How many bytes of stack a call takes, the switch to it included. */
static size_t depth(void (*call)(void))
{
    memset(stack, PAINT, STACK);
    getcontext(&callee);
    callee.uc_stack.ss_sp = stack;
    callee.uc_stack.ss_size = STACK;
    callee.uc_link = &caller;
    makecontext(&callee, call, 0);
    swapcontext(&caller, &callee);
    size_t unused = 0;
    while (unused < STACK && stack[unused] == PAINT) {
        unused++;
    }
    return STACK - unused;
}

/* The calls by name. */
static const struct {
    const char *name;
    void (*call)(void);
} CALLS[] = {
    {"fq_judge", judge}, {"fq_write", write}, {"fq_write_shared", write_shared}, {"fq_rewrite", rewrite}, {"fq_record", record},
    {"fq_response", response}, {"fq_slack", slack}, {"fq_verdict", verdict}, {"fq_times", times},
    {"fq_least_interval", least_interval}, {"fq_next", next}, {"fq_list", list}, {"fq_list, no room", short_list},
    {"fq_assured_response", assured_response}, {"fq_assured_next", assured_next}, {"fq_assured_list", assured_list},
    {"fq_assured_list, no room", short_assured_list}, {"fq_replay", replay}, {"fq_check", check}, {"fq_grant", grant}, {"fq_mend", mend},
    {"fq_cores", cores}, {"fq_release", release},
};

/* The most that a call takes on the everyday sheet, at its own interval and at 1. */
static size_t deepest(void (*call)(void))
{
    const uint16_t intervals[] = {everyday.interval, 1};
    size_t most = 0;
    for (size_t index = 0; index < sizeof intervals / sizeof intervals[0]; index++) {
        numbers = everyday;
        numbers.interval = intervals[index];
        length = (size_t)fq_write(numbers.count, numbers.interval, numbers.fields, FIELDS, sheet, sizeof sheet);
        size_t bytes = depth(call);
        most = bytes > most ? bytes : most;
    }
    return most;
}

/* Prints the most that each call takes, less what the switch itself takes. */
int main(void)
{
    size_t empty = deepest(nothing);
    size_t most = 0;
    printf("\n## Stack\n\n| Call | bytes at most |\n|---|---:|\n");
    for (size_t index = 0; index < sizeof CALLS / sizeof CALLS[0]; index++) {
        size_t bytes = deepest(CALLS[index].call) - empty;
        most = bytes > most ? bytes : most;
        printf("| %s | %zu |\n", CALLS[index].name, bytes);
    }
    if (most > FQ_STACK_BYTES) {
        fprintf(stderr, "a call takes %zu bytes of stack, and the header says %d\n", most, FQ_STACK_BYTES);
        return 1;
    }
    return 0;
}
