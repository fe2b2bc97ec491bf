/* The bytes of drafts: as they are, damaged, and as people type them. */
#ifndef SHEETS_H
#define SHEETS_H

#include "drafts.h"

/* Room for a sheet with some bytes too many. */
enum { SHEET_ROOM = 96 };

/* What is done to a good sheet. */
enum damage {
    NO_DAMAGE,
    BROKEN_RULE,
    TWO_BROKEN_RULES,
    IMPOSSIBLE_COUNT,
    RANDOM_BYTES,
    BYTES_ADDED,
    BYTE_CHANGED,
    BIT_FLIPPED
};

/* The bytes of a sheet. */
struct sheet {
    size_t length;
    uint8_t bytes[SHEET_ROOM];
};

/* The bytes of a draft, good or not. */
struct sheet packed(const struct draft *draft);

/* Prints a sheet in hexadecimal, after why it is printed. */
void print_sheet(const char *reason, const struct sheet *sheet);

/* The sheet of a draft with some damage done to it; a rule or a count is broken in the draft as well. */
struct sheet damaged_sheet(struct generator *generator, struct draft *draft, enum damage damage);

/*
 * The sheet of a draft as it is typed by hand: deadlines above their periods, fault priorities at and past their edges, often bytes
 * after the last record, now and then another rule broken or the last byte missing.
 */
struct sheet mistyped_sheet(struct generator *generator, struct draft *draft);

#endif
