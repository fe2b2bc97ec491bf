/*
 * The plain desk's assured times and choices: the assured equation of docs/RUNS.md sentence by sentence, for the whole processor, and the
 * choices under which every task has a time by it within its deadline.
 */
#include "plain.h"
#include "search.h"

/* Whether the backup of a record is "among i itself, the tasks with q above q of i, and the tasks with q equal to q of i and a priority above p of i". */
static bool is_among(const struct table *table, size_t place, size_t other)
{
    const struct record *own = &table->records[place];
    const struct record *task = &table->records[other];
    if (other == place || task->fault_priority > own->fault_priority) {
        return true;
    }
    return task->fault_priority == own->fault_priority && task->priority > own->priority;
}

/* N, "the largest B among" these. */
static uint64_t largest_among(const struct table *table, size_t place)
{
    uint64_t largest = 0;
    for (size_t other = 0; other < table->count; other++) {
        if (is_among(table, place, other) && table->records[other].backup > largest) {
            largest = table->records[other].backup;
        }
    }
    return largest;
}

/* "at least C, plus up(L, T) × C for each other task with priority above q of i, plus up(L, E) × N" */
static uint64_t assured_length(const struct table *table, size_t place, uint64_t length)
{
    uint64_t needed = table->records[place].cost;
    for (size_t other = 0; other < table->count; other++) {
        const struct record *task = &table->records[other];
        if (other != place && task->priority > table->records[place].fault_priority) {
            needed += up(length, task->period) * task->cost;
        }
    }
    return needed + up(length, table->interval) * largest_among(table, place);
}

/* "the least L", within the deadline, or no time. */
static uint64_t assured_time(const struct table *table, size_t place)
{
    return least_length(assured_length, table, place, table->records[place].deadline);
}

/* Whether every task has an assured time. */
static bool is_assured(const struct table *table)
{
    for (size_t place = 0; place < table->count; place++) {
        if (assured_time(table, place) == NO_TIME) {
            return false;
        }
    }
    return true;
}

/* The assured time of the record at a place. */
int64_t plain_assured_response(const uint8_t *sheet, size_t len, size_t place)
{
    struct table table;
    int64_t refusal = refused_shared(sheet, len, &table);
    if (refusal == 0 && place >= table.count) {
        refusal = -FQ_BAD_PLACE;
    }
    return refusal != 0 ? refusal : (int64_t)assured_time(&table, place);
}

/* Whether the sheet is assured as it stands. */
int64_t plain_is_assured(const uint8_t *sheet, size_t len)
{
    struct table table;
    int64_t refusal = refused_shared(sheet, len, &table);
    return refusal != 0 ? refusal : is_assured(&table);
}

/* The first choice of all, in order, that stands after the given one and is assured. */
int64_t plain_assured_next(const uint8_t *sheet, size_t len, uint32_t after)
{
    struct table table;
    int64_t refusal = refused_shared(sheet, len, &table);
    return refusal != 0 ? refusal : search_next(&table, is_assured, after);
}

/* Every assured choice of all, in order. */
int64_t plain_assured_list(const uint8_t *sheet, size_t len, uint8_t *out, size_t out_len)
{
    struct table table;
    int64_t refusal = refused_shared(sheet, len, &table);
    return refusal != 0 ? refusal : search_list(&table, is_assured, out, out_len);
}
