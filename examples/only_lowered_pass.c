/*
 * Links the library: writes the sheet of the same name from its numbers, and prints each task's response and every passing choice.
 * From the repository's root, on x86-64:
 *
 *     (cd crates/fidhaqooban && rt lib)
 *     gcc -std=c11 -Iinclude -o example examples/only_lowered_pass.c crates/fidhaqooban/out/libfidhaqooban.a && ./example
 */
#include <fidhaqooban.h>

#include <inttypes.h>
#include <stdio.h>

enum { COUNT = 4, INTERVAL = 300, CHOICE_BYTES = 4 };

/* Cost, backup, deadline, period, priority and fault priority of each task: radio, note store, settlement check, log. */
static const uint16_t NUMBERS[COUNT * FQ_RECORD_NUMBERS] = {
    5, 10, 50, 50, 4, 4,
    15, 40, 150, 150, 3, 3,
    35, 25, 95, 250, 2, 2,
    50, 75, 310, 500, 1, 1,
};

/* Prints that a task is late, and by how much where there is a figure. */
static void print_late(const uint8_t *sheet, size_t length, size_t place)
{
    int32_t slack;
    if (fq_slack(sheet, length, place, &slack, 1) == 1) {
        printf("task %zu: late, slack %" PRId32 "\n", place + 1, slack);
    } else {
        printf("task %zu: late, and no response time up to 65535\n", place + 1);
    }
}

/* Prints each task's response time, or that it is late. A negative answer is neither: it is a refusal. */
static void print_responses(const uint8_t *sheet, size_t length)
{
    for (size_t place = 0; place < COUNT; place++) {
        int64_t time = fq_response(sheet, length, place);
        if (time < 0) {
            printf("task %zu: refused by rule %" PRId64 "\n", place + 1, -time);
        } else if (time == 0) {
            print_late(sheet, length, place);
        } else {
            printf("task %zu: %" PRId64 " ticks\n", place + 1, time);
        }
    }
}

/* Prints the fault priority of each task, four bits, in every choice of the list. */
static void print_list(const uint8_t *list, int64_t choices)
{
    for (int64_t choice = 0; choice < choices; choice++) {
        printf("passes with fault priorities");
        for (int place = 0; place < COUNT; place++) {
            uint8_t both = list[CHOICE_BYTES * choice + place / 2];
            printf(" %d", place % 2 == 0 ? both >> 4 : both & 15);
        }
        printf("\n");
    }
}

/* Writes the sheet, and asks it for its responses and its list. */
int main(void)
{
    uint8_t sheet[FQ_SHEET_BYTES];
    static uint8_t list[FQ_LIST_BYTES];
    int64_t length = fq_write(COUNT, INTERVAL, NUMBERS, COUNT * FQ_RECORD_NUMBERS, sheet, sizeof sheet);
    if (length < 0) {
        printf("the sheet breaks rule %" PRId64 "\n", -length);
        return 1;
    }
    print_responses(sheet, (size_t)length);

    int64_t choices = fq_list(sheet, (size_t)length, list, sizeof list);
    if (choices < 0) {
        printf("the list was refused: %" PRId64 "\n", -choices);
        return 1;
    }
    print_list(list, choices);
    return 0;
}
