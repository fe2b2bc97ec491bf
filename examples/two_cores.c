/*
 * Links the library and puts the four tasks of the sheet only_lowered_pass on a box with one core, and on one with two. With every backup
 * at its task's own priority the third task is late beside the first two, so one core does not do; the second core takes it, and the
 * fourth task still fits beside the first two.
 * From the repository's root, on x86-64:
 *
 *     (cd crates/fidhaqooban && rt lib)
 *     gcc -std=c11 -Iinclude -o example examples/two_cores.c crates/fidhaqooban/out/libfidhaqooban.a && ./example
 */
#include <fidhaqooban.h>

#include <inttypes.h>
#include <stdbool.h>
#include <stdio.h>

enum { COUNT = 4, INTERVAL = 300 };

/* Cost, backup, deadline, period, priority and fault priority of each task: radio, note store, settlement check, log. */
static const uint16_t NUMBERS[COUNT * FQ_RECORD_NUMBERS] = {
    5, 10, 50, 50, 4, 4,
    15, 40, 150, 150, 3, 3,
    35, 25, 95, 250, 2, 2,
    50, 75, 310, 500, 1, 1,
};

/* Asks for so many cores and prints the answer: whether it was one. */
static bool print_cores(const uint8_t *sheet, size_t length, uint8_t cores)
{
    uint8_t core_of[COUNT];
    int64_t answer = fq_cores(sheet, length, cores, core_of, sizeof core_of);
    if (answer < 0) {
        printf("refused %" PRId64 "\n", -answer);
        return false;
    }
    printf("cores %d:", cores);
    if (answer > 0) {
        printf(" task %" PRId64 " fits none\n", answer);
        return true;
    }
    for (size_t place = 0; place < COUNT; place++) {
        printf(" %d", core_of[place]);
    }
    puts("");
    return true;
}

/* Writes the sheet, and asks for one core and for two. */
int main(void)
{
    uint8_t sheet[FQ_SHEET_BYTES];
    int64_t length = fq_write(COUNT, INTERVAL, NUMBERS, COUNT * FQ_RECORD_NUMBERS, sheet, sizeof sheet);
    if (length < 0) {
        printf("refused %" PRId64 "\n", -length);
        return 1;
    }
    return !(print_cores(sheet, (size_t)length, 1) && print_cores(sheet, (size_t)length, 2));
}
