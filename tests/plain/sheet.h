/*
 * Sheets as the plain desk reads, judges and writes them, straight from the text of the rules.
 */
#ifndef PLAIN_SHEET_H
#define PLAIN_SHEET_H

#include "../format.h"

#include <stdbool.h>

/* One task as its record gives it. */
struct record {
    uint64_t cost;
    uint64_t backup;
    uint64_t deadline;
    uint64_t period;
    uint64_t priority;
    uint64_t fault_priority;
};

/* What a whole sheet says. */
struct table {
    uint64_t count;
    uint64_t interval;
    uint64_t round;
    uint64_t share;
    struct record records[FQ_MOST_TASKS];
};

/* Takes the next bits of the bytes, most significant first, and moves the position past them. */
uint64_t take_bits(const uint8_t *bytes, size_t *position, unsigned width);

/* Puts a value of so many bits at the position, most significant first, and moves the position past it. */
void put_bits(uint8_t *bytes, size_t *position, unsigned width, uint64_t value);

/* Whether a table has the whole processor. */
bool is_whole(const struct table *table);

/* How many bytes the header of a table's sheet has. */
size_t header_bytes(const struct table *table);

/* The refusal of a table by rules 2, 5, 18 and 6 to 10, or 0. */
uint8_t judge_table(const struct table *table);

/* Reads a sheet into a table: its refusal by rules 1 to 10 and 18, or 0. */
uint8_t read_sheet(const uint8_t *sheet, size_t len, struct table *table);

/* Writes a good table where there is room for it; the answer is that of plain_write and plain_rewrite. */
int64_t write_table(const struct table *table, uint8_t *out, size_t out_len);

/* Reads a sheet into a table: 0, or minus the refusal. */
int64_t refused(const uint8_t *sheet, size_t len, struct table *table);

/* The same where only a sheet of the whole processor is taken: its own refusal, then 19. */
int64_t refused_shared(const uint8_t *sheet, size_t len, struct table *table);

/* The same as the first for the record at a place of the sheet: its own refusal, then 12. */
int64_t refused_at(const uint8_t *sheet, size_t len, size_t place, struct table *table);

#endif
