/* A sheet as the baseline reads it: a table indexed by priority. */
#ifndef READING_H
#define READING_H

#include "../tests/format.h"

#include <stdbool.h>

/* One task; its priority is its index in the table. */
struct record {
    uint16_t cost;
    uint16_t backup;
    uint16_t deadline;
    uint16_t period;
    uint8_t fault_priority;
};

/* A good sheet: the tasks by priority (none is at 0), and the priority found at each place. */
struct table {
    unsigned count;
    uint32_t interval;
    uint32_t round;
    uint32_t share;
    uint8_t priority_at[FQ_MOST_TASKS];
    struct record records[FQ_MOST_TASKS + 1];
};

/* Writes a number as two bytes, the first byte highest. */
void write_number(uint8_t *bytes, uint32_t number);

/* How many bytes the header of a table's sheet has. */
size_t header_bytes(const struct table *table);

/* Whether the processor is shared. */
bool is_shared(const struct table *table);

/* Reads a whole sheet, and answers the first rule that it breaks, or 0. */
uint8_t read_sheet(const uint8_t *sheet, size_t len, struct table *table);

/* Writes the sheet of a table. */
void write_sheet(const struct table *table, uint8_t *out);

#endif
