/*
 * The plain desk's times, verdicts, intervals and choices, straight from the text of the equations. Each is found by trying all
 * candidates in order; nothing is shared with the library, and nothing is clever.
 */
#include "plain.h"
#include "search.h"

/* No record is at this place. */
enum { NOBODY = FQ_MOST_TASKS };

/* The largest backup among the records but one with a fault priority at or above a priority, or 0. */
static uint64_t largest_backup(const struct table *table, uint64_t priority, size_t left_out)
{
    uint64_t largest = 0;
    for (size_t place = 0; place < table->count; place++) {
        const struct record *other = &table->records[place];
        if (place != left_out && other->fault_priority >= priority && other->backup > largest) {
            largest = other->backup;
        }
    }
    return largest;
}

/* The cost, within a length, of each record with a priority above another. */
static uint64_t cost_above(const struct table *table, uint64_t priority, uint64_t length)
{
    uint64_t sum = 0;
    for (size_t place = 0; place < table->count; place++) {
        const struct record *other = &table->records[place];
        if (other->priority > priority) {
            sum += up(length, other->period) * other->cost;
        }
    }
    return sum;
}

/* What the supplier's code takes within a length: as a task above all others would. */
static uint64_t supplier_cost(const struct table *table, uint64_t length)
{
    return up(length, table->round) * (table->round - table->share);
}

/* What a record needs when faults hit other tasks only. */
static uint64_t struck_elsewhere(const struct table *table, size_t place, uint64_t length)
{
    const struct record *own = &table->records[place];
    return own->cost + cost_above(table, own->priority, length) +
           up(length, table->interval) * largest_backup(table, own->priority, place) + supplier_cost(table, length);
}

/* What a record needs when it is struck itself. */
static uint64_t struck_itself(const struct table *table, size_t place, uint64_t length)
{
    const struct record *own = &table->records[place];
    uint64_t needed = own->cost + own->backup + supplier_cost(table, length);
    for (size_t other = 0; other < table->count; other++) {
        const struct record *task = &table->records[other];
        if (task->priority > own->priority) {
            needed += up(length, task->period) * task->cost;
        } else if (task->priority > own->fault_priority && task->priority < own->priority) {
            needed += (1 + up(length, task->period)) * task->cost;
        }
    }
    return needed + (up(length, table->interval) - 1) * largest_backup(table, own->fault_priority, NOBODY);
}

/* The response time of a record, or no time within the limit. */
static uint64_t response_time(const struct table *table, size_t place, uint64_t limit)
{
    uint64_t elsewhere = least_length(struck_elsewhere, table, place, limit);
    uint64_t itself = least_length(struck_itself, table, place, limit);
    if (elsewhere == NO_TIME || itself == NO_TIME) {
        return NO_TIME;
    }
    return elsewhere > itself ? elsewhere : itself;
}

/* Whether no task of the table is late. */
static bool passes(const struct table *table)
{
    for (size_t place = 0; place < table->count; place++) {
        if (response_time(table, place, table->records[place].deadline) == NO_TIME) {
            return false;
        }
    }
    return true;
}

/* The response time of the record at a place. */
int64_t plain_response(const uint8_t *sheet, size_t len, size_t place)
{
    struct table table;
    int64_t refusal = refused_at(sheet, len, place, &table);
    if (refusal != 0) {
        return refusal;
    }
    uint64_t time = response_time(&table, place, HIGHEST);
    return time > table.records[place].deadline ? NO_TIME : (int64_t)time;
}

/* The slack of the record at a place. */
int64_t plain_slack(const uint8_t *sheet, size_t len, size_t place, int32_t *out, size_t out_len)
{
    struct table table;
    int64_t refusal = refused_at(sheet, len, place, &table);
    if (refusal == 0 && out_len == 0) {
        refusal = -FQ_SHORT_OUTPUT;
    }
    if (refusal != 0) {
        return refusal;
    }
    uint64_t time = response_time(&table, place, HIGHEST);
    if (time == NO_TIME) {
        return 0;
    }
    out[0] = (int32_t)((int64_t)table.records[place].deadline - (int64_t)time);
    return 1;
}

/* The time of each record, whether its slack has a figure and the slack, and whether the sheet passes. */
int64_t plain_times(const uint8_t *sheet, size_t len, int32_t *out, size_t out_len)
{
    struct table table;
    int64_t refusal = refused(sheet, len, &table);
    if (refusal == 0 && out_len < FQ_TIME_NUMBERS * table.count) {
        refusal = -FQ_SHORT_OUTPUT;
    }
    if (refusal != 0) {
        return refusal;
    }
    for (size_t place = 0; place < table.count; place++) {
        int32_t *own = &out[FQ_TIME_NUMBERS * place];
        int32_t slack = 0;
        own[0] = (int32_t)plain_response(sheet, len, place);
        own[1] = (int32_t)plain_slack(sheet, len, place, &slack, 1);
        own[2] = slack;
    }
    return passes(&table);
}

/* Whether the sheet passes. */
int64_t plain_verdict(const uint8_t *sheet, size_t len)
{
    struct table table;
    int64_t refusal = refused(sheet, len, &table);
    return refusal != 0 ? refusal : passes(&table);
}

/* The first interval of all, from 1 up, at which the sheet passes. */
int64_t plain_least_interval(const uint8_t *sheet, size_t len)
{
    struct table table;
    int64_t refusal = refused(sheet, len, &table);
    if (refusal != 0) {
        return refusal;
    }
    for (uint32_t interval = 1; interval <= HIGHEST; interval++) {
        table.interval = interval;
        if (passes(&table)) {
            return interval;
        }
    }
    return 0;
}

/* The first choice of all, in order, that stands after the given one and passes. */
int64_t plain_next(const uint8_t *sheet, size_t len, uint32_t after)
{
    struct table table;
    int64_t refusal = refused(sheet, len, &table);
    return refusal != 0 ? refusal : search_next(&table, passes, after);
}

/* Every passing choice of all, in order. */
int64_t plain_list(const uint8_t *sheet, size_t len, uint8_t *out, size_t out_len)
{
    struct table table;
    int64_t refusal = refused(sheet, len, &table);
    return refusal != 0 ? refusal : search_list(&table, passes, out, out_len);
}
