/*
 * Makes one call on one of the slow sheets of bench/sheets.c, so that the work of that call can be counted: work CALL. tests/tree/work.txt has
 * the calls and their limits.
 */
#include "../../bench/sheets.h"

#include <stdio.h>
#include <string.h>

static uint8_t bytes[FQ_SHEET_BYTES];
static uint8_t output[FQ_LIST_BYTES];

/* A call by its name: the sheet, and what is asked of it. */
struct call {
    const char *name;
    const struct sheet *sheet;
    int64_t (*ask)(const uint8_t *sheet, size_t len);
};

static int64_t list(const uint8_t *sheet, size_t len) { return fq_list(sheet, len, output, sizeof output); }
static int64_t assured_list(const uint8_t *sheet, size_t len) { return fq_assured_list(sheet, len, output, sizeof output); }
static int64_t next(const uint8_t *sheet, size_t len) { return fq_next(sheet, len, 0); }
static int64_t assured_next(const uint8_t *sheet, size_t len) { return fq_assured_next(sheet, len, 0); }

static const struct call CALLS[] = {
    {"list_of_all", &everyday, list},
    {"list_of_none_lowest_late", &lowest_late_last, list},
    {"list_of_none_slow_steps", &slow_steps, list},
    {"list_of_none_slow_choices", &slow_choices, list},
    {"step_to_the_end_slow_choices", &slow_choices, next},
    {"least_interval_none", &slow_interval, fq_least_interval},
    {"assured_list_of_all", &everyday, assured_list},
    {"assured_list_of_none_slow_steps", &slow_steps, assured_list},
    {"assured_step_to_the_end_slow_choices", &slow_choices, assured_next},
};

/* Makes the call and prints its answer. */
int main(int argc, char **argv)
{
    for (size_t call = 0; argc == 2 && call < sizeof CALLS / sizeof *CALLS; call++) {
        if (strcmp(argv[1], CALLS[call].name) == 0) {
            const struct sheet *sheet = CALLS[call].sheet;
            int64_t size = fq_write(sheet->count, sheet->interval, sheet->fields, (size_t)sheet->count * FQ_RECORD_NUMBERS, bytes, sizeof bytes);
            printf("%lld\n", (long long)CALLS[call].ask(bytes, (size_t)size));
            return size < 0;
        }
    }
    return 2;
}
