/*
 * Links the library and decides what a box loads, as its loader would. The release of March was planned with a sheet that had left
 * out the running time of the note store's backup, and it passed. Here that sheet is in use, and candidates come in that know the
 * backup. The settlement check is protected: it may not get slower.
 * From the repository's root, on x86-64:
 *
 *     (cd crates/fidhaqooban && rt lib)
 *     gcc -std=c11 -Iinclude -o example examples/release_of_march.c crates/fidhaqooban/out/libfidhaqooban.a && ./example
 */
#include <fidhaqooban.h>

#include <inttypes.h>
#include <stdio.h>
#include <stdlib.h>

/* The tasks of the box, by place. */
enum { RADIO, NOTE_STORE, SETTLEMENT_CHECK, LOG, COUNT };

/* The fault interval, and a backup that is left out. */
enum { INTERVAL = 300, LEFT_OUT = 1 };

/* The bytes of a sheet. */
struct sheet {
    size_t length;
    uint8_t bytes[FQ_SHEET_BYTES];
};

/* The sheet of so many tasks, six numbers each: cost, backup, deadline, period, priority, fault priority. */
static struct sheet written(uint8_t count, const uint16_t *numbers)
{
    struct sheet sheet;
    int64_t length = fq_write(count, INTERVAL, numbers, (size_t)count * FQ_RECORD_NUMBERS, sheet.bytes, sizeof sheet.bytes);
    if (length < 0) {
        printf("a sheet breaks rule %" PRId64 "\n", -length);
        exit(1);
    }
    sheet.length = (size_t)length;
    return sheet;
}

/* The sheet of the box, with the note store's backup and the fault priority of that backup. */
static struct sheet planned(uint16_t backup, uint16_t fault_priority)
{
    const uint16_t numbers[COUNT * FQ_RECORD_NUMBERS] = {
        5, 10, 50, 50, 4, 4,
        15, backup, 150, 150, 3, fault_priority,
        35, 25, 95, 250, 2, 2,
        50, 75, 310, 500, 1, 1,
    };
    return written(COUNT, numbers);
}

/* Prints the responses of a sheet. */
static void print_responses(const char *name, const struct sheet *sheet)
{
    printf("%s:", name);
    for (size_t place = 0; place < COUNT; place++) {
        int64_t time = fq_response(sheet->bytes, sheet->length, place);
        if (time > 0) {
            printf(" %" PRId64, time);
        } else {
            printf(" late");
        }
    }
    printf("\n");
}

/* The sheet to load, of the one in use and a candidate; refused, the box keeps what it has. */
static const struct sheet *to_load(const struct sheet *in_use, const struct sheet *candidate, uint8_t protected_places)
{
    int64_t answer = fq_release(in_use->bytes, in_use->length, candidate->bytes, candidate->length, protected_places);
    if (answer < 0) {
        printf("  refused by rule %" PRId64 "\n", -answer);
    } else {
        printf("  %s\n", answer == 1 ? "the candidate is loaded" : "the sheet in use stays");
    }
    return answer == 1 ? candidate : in_use;
}

/* Puts candidates to the release desk, one after the other. */
int main(void)
{
    static const uint16_t RADIO_ALONE[FQ_RECORD_NUMBERS] = {5, 10, 50, 50, 1, 1};
    const struct sheet march = planned(LEFT_OUT, 3);
    const struct sheet whole = planned(40, 3);
    const struct sheet lowered = planned(40, 1);
    const struct sheet fewer = written(1, RADIO_ALONE);
    const struct sheet *in_use = &march;
    print_responses("in use, the note store's backup left out", in_use);

    /* With the backup as it runs the settlement check is late: the plan of March does not pass. */
    print_responses("candidate, with its backup of 40 ticks", &whole);
    in_use = to_load(in_use, &whole, 1 << SETTLEMENT_CHECK);

    /* Lowered behind the other tasks, the backup makes nobody late. The settlement check is as quick as before, which is not slower;
       the note store is slower, and whoever protects it as well keeps the sheet in use. */
    print_responses("candidate, with that backup lowered to 1", &lowered);
    in_use = to_load(in_use, &lowered, 1 << SETTLEMENT_CHECK | 1 << NOTE_STORE);
    in_use = to_load(in_use, &lowered, 1 << SETTLEMENT_CHECK);
    print_responses("in use", in_use);

    /* A sheet of another number of tasks is no candidate, and a place without a task cannot be protected. */
    printf("candidate of one task\n");
    in_use = to_load(in_use, &fewer, 1 << SETTLEMENT_CHECK);
    printf("candidate as in use, a fifth task protected\n");
    to_load(in_use, &lowered, 1 << COUNT);
    return 0;
}
