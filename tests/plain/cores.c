/*
 * The plain desk for boxes with several cores: each core's tasks are written as a sheet of their own, which is then
 * asked for its verdict.
 */
#include "plain.h"
#include "sheet.h"

#include <string.h>

/* Renumbers the priorities from 1 in their order, lowest first, and makes each fault priority the same. */
static void renumber(struct table *table)
{
    bool is_renumbered[FQ_MOST_TASKS] = {false};
    uint64_t old[FQ_MOST_TASKS];
    for (size_t place = 0; place < table->count; place++) {
        old[place] = table->records[place].priority;
    }
    for (uint64_t priority = 1; priority <= table->count; priority++) {
        size_t lowest = table->count;
        for (size_t place = 0; place < table->count; place++) {
            if (!is_renumbered[place] && (lowest == table->count || old[place] < old[lowest])) {
                lowest = place;
            }
        }
        is_renumbered[lowest] = true;
        table->records[lowest].priority = priority;
        table->records[lowest].fault_priority = priority;
    }
}

/* Whether a core's tasks still pass with the record at a place, where the records before it are on their cores. */
static bool still_pass(const struct table *table, const uint8_t *cores, size_t place, uint8_t core)
{
    uint8_t sheet[FQ_SHEET_BYTES];
    struct table tasks = *table;
    tasks.count = 0;
    for (size_t other = 0; other < place; other++) {
        if (cores[other] == core) {
            tasks.records[tasks.count] = table->records[other];
            tasks.count++;
        }
    }
    tasks.records[tasks.count] = table->records[place];
    tasks.count++;
    renumber(&tasks);
    int64_t length = write_table(&tasks, sheet, sizeof sheet);
    return plain_verdict(sheet, (size_t)length) == 1;
}

/* Puts the records on cores in their order. */
int64_t plain_cores(const uint8_t *sheet, size_t len, uint8_t cores, uint8_t *out, size_t out_len)
{
    struct table table;
    uint8_t core_of[FQ_MOST_TASKS] = {0};
    int64_t refusal = refused_shared(sheet, len, &table);
    if (refusal != 0) {
        return refusal;
    }
    if (cores < 1 || cores > FQ_MOST_CORES) {
        return -FQ_BAD_CORES;
    }
    for (size_t place = 0; place < table.count; place++) {
        uint8_t core = 1;
        while (core <= cores && !still_pass(&table, core_of, place, core)) {
            core++;
        }
        if (core > cores) {
            return (int64_t)place + 1;
        }
        core_of[place] = core;
    }
    if (out_len < table.count) {
        return -FQ_SHORT_OUTPUT;
    }
    memcpy(out, core_of, table.count);
    return 0;
}
