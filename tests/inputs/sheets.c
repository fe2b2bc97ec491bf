/* Sheets of drafts, as they are and damaged. */
#include "sheets.h"

#include <stdio.h>

enum { LONGEST_RANDOM_SHEET = 84, MOST_ADDED_BYTES = 12, HIGHEST_PRIORITY = 15 };

/* Breaks, where its numbers leave room for it, one of the rules 6 to 8 in a record. */
static void break_times(struct generator *generator, uint16_t *numbers)
{
    enum number number = once_in(generator, 2) ? COST : BACKUP;
    switch (random_below(generator, 4)) {
    case 0:
        numbers[number] = 0;
        break;
    case 1:
        numbers[number] = at_most(numbers[DEADLINE] + 1u, HIGHEST);
        break;
    case 2:
        numbers[number] = HIGHEST;
        break;
    default:
        numbers[PERIOD] = numbers[DEADLINE] > 0 ? numbers[DEADLINE] - 1 : 0;
        break;
    }
}

/* Breaks, most of the time, rule 9 or 10 in a record. */
static void break_priorities(struct generator *generator, struct draft *draft, uint16_t *numbers)
{
    switch (random_below(generator, 7)) {
    case 0:
        numbers[PRIORITY] = 0;
        break;
    case 1:
        numbers[PRIORITY] = (uint16_t)(draft->tasks + 1);
        break;
    case 2:
        numbers[PRIORITY] = draft->numbers[random_below(generator, draft->tasks)][PRIORITY];
        break;
    case 3:
        numbers[PRIORITY] = (uint16_t)random_below(generator, HIGHEST_PRIORITY + 1);
        break;
    case 4:
        numbers[FAULT_PRIORITY] = 0;
        break;
    case 5:
        numbers[FAULT_PRIORITY] = numbers[PRIORITY] + 1;
        break;
    default:
        numbers[FAULT_PRIORITY] = (uint16_t)random_below(generator, HIGHEST_PRIORITY + 1);
        break;
    }
}

/* Gives the header a count that no sheet may have. */
static void break_count(struct generator *generator, struct draft *draft)
{
    draft->count = once_in(generator, 2) ? 0 : FQ_MOST_TASKS + 1 + (unsigned)random_below(generator, 7);
}

/* Breaks rule 18 in a shared draft; of one that is not, gives the bytes of the other edition. */
static void break_share(struct generator *generator, struct draft *draft)
{
    draft->reserved = 1;
    switch (random_below(generator, 5)) {
    case 0:
        draft->share = 0;
        break;
    case 1:
        draft->share = draft->round;
        break;
    case 2:
        draft->share = at_most(draft->round + 1u, HIGHEST);
        break;
    case 3:
        draft->round = 0;
        break;
    default:
        draft->round = 1;
        draft->share = 1;
        break;
    }
}

/* Changes a draft so that it most likely breaks one of the rules 2, 3, 5 to 10 and 18. */
static void break_draft(struct generator *generator, struct draft *draft)
{
    uint16_t *numbers = draft->numbers[random_below(generator, draft->tasks)];
    switch (random_below(generator, 14)) {
    case 0:
        draft->interval = 0;
        break;
    case 1:
        draft->reserved = (unsigned)random_below(generator, 16);
        break;
    case 2:
        break_count(generator, draft);
        break;
    case 3:
    case 4:
    case 5:
    case 6:
        break_times(generator, numbers);
        break;
    case 7:
    case 8:
        break_share(generator, draft);
        break;
    default:
        break_priorities(generator, draft, numbers);
        break;
    }
}

/* Adds a number of 16 bits to a sheet. */
static void add_number(struct sheet *sheet, uint16_t number)
{
    sheet->bytes[sheet->length] = (uint8_t)(number >> 8);
    sheet->bytes[sheet->length + 1] = (uint8_t)number;
    sheet->length += 2;
}

/* Packs two fields of four bits into a byte and splits those of sixteen, with shifts only. */
struct sheet packed(const struct draft *draft)
{
    struct sheet sheet = {.length = 1};
    sheet.bytes[0] = (uint8_t)(draft->count << 4 | draft->reserved);
    add_number(&sheet, draft->interval);
    if (draft->is_shared) {
        add_number(&sheet, draft->round);
        add_number(&sheet, draft->share);
    }
    for (unsigned place = 0; place < draft->tasks; place++) {
        const uint16_t *numbers = draft->numbers[place];
        add_number(&sheet, numbers[COST]);
        add_number(&sheet, numbers[BACKUP]);
        add_number(&sheet, numbers[DEADLINE]);
        add_number(&sheet, numbers[PERIOD]);
        sheet.bytes[sheet.length] = (uint8_t)(numbers[PRIORITY] << 4 | (numbers[FAULT_PRIORITY] & HIGHEST_PRIORITY));
        sheet.length++;
    }
    return sheet;
}

/* Prints two digits for each byte. */
void print_sheet(const char *reason, const struct sheet *sheet)
{
    printf("%s: ", reason);
    for (size_t index = 0; index < sheet->length; index++) {
        printf("%02x", sheet->bytes[index]);
    }
    puts("");
}

/* A sheet of random bytes; some are very short, and some have a header that is true to the length. */
static struct sheet noise_sheet(struct generator *generator)
{
    struct sheet sheet = {.length = random_below(generator, LONGEST_RANDOM_SHEET + 1)};
    random_bytes(generator, sheet.bytes, SHEET_ROOM);
    if (once_in(generator, 4)) {
        sheet.length = random_below(generator, SHARED_HEADER_BYTES + 1);
    } else if (once_in(generator, 2)) {
        unsigned count = 1 + (unsigned)random_below(generator, FQ_MOST_TASKS);
        unsigned edition = (unsigned)random_below(generator, 2);
        sheet.bytes[0] = (uint8_t)(count << 4 | edition);
        sheet.length = (edition == 0 ? HEADER_BYTES : SHARED_HEADER_BYTES) + RECORD_BYTES * count;
    }
    return sheet;
}

/* Adds random bytes to the end of a sheet. */
static void lengthen(struct generator *generator, struct sheet *sheet)
{
    size_t added = 1 + random_below(generator, MOST_ADDED_BYTES);
    random_bytes(generator, sheet->bytes + sheet->length, added);
    sheet->length += added;
}

/* Changes one byte of a sheet, or one bit only. */
static void change_byte(struct generator *generator, struct sheet *sheet, bool bit_only)
{
    uint8_t *byte = &sheet->bytes[random_below(generator, sheet->length)];
    unsigned change = bit_only ? 1u << random_below(generator, 8) : 1 + (unsigned)random_below(generator, 255);
    *byte = (uint8_t)(*byte ^ change);
}

/* Breaks the draft before packing it, or the bytes after. */
struct sheet damaged_sheet(struct generator *generator, struct draft *draft, enum damage damage)
{
    if (damage == RANDOM_BYTES) {
        return noise_sheet(generator);
    }
    if (damage == BROKEN_RULE || damage == TWO_BROKEN_RULES) {
        break_draft(generator, draft);
    }
    if (damage == TWO_BROKEN_RULES) {
        break_draft(generator, draft);
    }
    if (damage == IMPOSSIBLE_COUNT) {
        break_count(generator, draft);
    }
    struct sheet sheet = packed(draft);
    if (damage == BYTES_ADDED) {
        lengthen(generator, &sheet);
    }
    if (damage == BYTE_CHANGED || damage == BIT_FLIPPED) {
        change_byte(generator, &sheet, damage == BIT_FLIPPED);
    }
    return sheet;
}

/* Puts a deadline, most of the time, just above its period, far above it or at it. */
static void mistype_deadline(struct generator *generator, uint16_t *numbers)
{
    switch (random_below(generator, 4)) {
    case 0:
        numbers[DEADLINE] = at_most(numbers[PERIOD] + 1u, HIGHEST);
        break;
    case 1:
        numbers[DEADLINE] = edged(generator, numbers[PERIOD], HIGHEST);
        break;
    case 2:
        numbers[PERIOD] = (uint16_t)(numbers[DEADLINE] - 1);
        break;
    default:
        numbers[PERIOD] = edged(generator, numbers[COST], numbers[DEADLINE]);
        break;
    }
}

/* Puts a fault priority at zero, just above the task's own, at the highest that fits, or anywhere. */
static void mistype_fault_priority(struct generator *generator, uint16_t *numbers)
{
    switch (random_below(generator, 4)) {
    case 0:
        numbers[FAULT_PRIORITY] = 0;
        break;
    case 1:
        numbers[FAULT_PRIORITY] = (uint16_t)(numbers[PRIORITY] + 1);
        break;
    case 2:
        numbers[FAULT_PRIORITY] = HIGHEST_PRIORITY;
        break;
    default:
        numbers[FAULT_PRIORITY] = (uint16_t)random_below(generator, HIGHEST_PRIORITY + 1);
        break;
    }
}

/* Mistypes one in so many deadlines and fault priorities, the number drawn for the sheet, and now and then every one. */
struct sheet mistyped_sheet(struct generator *generator, struct draft *draft)
{
    unsigned slips = once_in(generator, 8) ? 1 : 2 + (unsigned)random_below(generator, 6);
    for (unsigned place = 0; place < draft->tasks; place++) {
        if (once_in(generator, slips)) {
            mistype_deadline(generator, draft->numbers[place]);
        }
        if (once_in(generator, slips)) {
            mistype_fault_priority(generator, draft->numbers[place]);
        }
    }
    if (once_in(generator, 8)) {
        break_draft(generator, draft);
    }
    struct sheet sheet = packed(draft);
    if (once_in(generator, 2)) {
        lengthen(generator, &sheet);
    } else if (once_in(generator, 16)) {
        sheet.length--;
    }
    return sheet;
}
