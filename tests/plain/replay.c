/*
 * The plain replay: request 1's paragraph sentence by sentence, and request 7's. It keeps the tick at which each thing
 * happened, and looks for the job that runs by comparing all of them. For request 12 it also tells how long jobs took,
 * and marks the faults that hurt most; for the search through all states it runs one tick from any jobs on.
 */
#include "machine.h"
#include "plain.h"

#include <string.h>

/* The ticks of a log, of two bytes each, or of a supplier's record, of three; the third says what ran. */
struct ticks {
    const uint8_t *bytes;
    size_t length;
    size_t bytes_of_tick;
};

/* A task of the sheet with its job, if it has one that is neither finished nor dropped, and the most ticks that one took. */
struct running {
    struct record task;
    bool has_job;
    bool is_backup;
    uint64_t left;
    uint64_t released_at;
    uint64_t longest;
};

/* The task of a priority from 1. */
static struct record with_priority(const struct table *table, uint64_t priority)
{
    size_t place = 0;
    while (table->records[place].priority != priority) {
        place++;
    }
    return table->records[place];
}

/* The bytes of a tick. */
static const uint8_t *bytes_at(const struct ticks *ticks, size_t tick)
{
    return ticks->bytes + ticks->bytes_of_tick * tick;
}

/* Whether a tick releases the task of a priority. */
static bool releases(const struct ticks *ticks, size_t tick, uint64_t priority)
{
    return (bytes_at(ticks, tick)[0] >> (priority - 1)) & 1;
}

/* Whether a tick is marked with a fault. */
static bool is_marked(const struct ticks *ticks, size_t tick)
{
    return bytes_at(ticks, tick)[1] >= FAULT_BIT;
}

/* Whether a release or a fault comes sooner than so many ticks after the last one, which may not be there. */
static bool is_early(bool has_last, size_t last, size_t tick, uint64_t distance)
{
    return has_last && tick - last < distance;
}

/* The refusal of a log or a record by rules 14 to 17, or 0. */
static uint8_t judge_ticks(const struct table *table, const struct ticks *ticks)
{
    bool was_released[FQ_MOST_TASKS + 1] = {false}, was_marked = false;
    size_t released_at[FQ_MOST_TASKS + 1] = {0}, marked_at = 0;

    if (ticks->length % ticks->bytes_of_tick != 0) {
        return FQ_ODD_LOG;
    }
    for (size_t tick = 0; tick < ticks->length / ticks->bytes_of_tick; tick++) {
        if (bytes_at(ticks, tick)[0] >> table->count != 0 || bytes_at(ticks, tick)[1] % FAULT_BIT != 0) {
            return FQ_STRANGE_BIT;
        }
        for (uint64_t priority = 1; priority <= table->count; priority++) {
            uint64_t period = with_priority(table, priority).period;
            if (!releases(ticks, tick, priority)) {
                continue;
            }
            if (is_early(was_released[priority], released_at[priority], tick, period)) {
                return FQ_EARLY_RELEASE;
            }
            was_released[priority] = true;
            released_at[priority] = tick;
        }
        if (is_marked(ticks, tick)) {
            if (is_early(was_marked, marked_at, tick, table->interval)) {
                return FQ_EARLY_FAULT;
            }
            was_marked = true;
            marked_at = tick;
        }
    }
    return 0;
}

/* The priority at which a job runs. */
static uint64_t running_priority(const struct running *one)
{
    return one->is_backup ? one->task.fault_priority : one->task.priority;
}

/* Whether one job goes before another. */
static bool goes_before(const struct running *one, const struct running *other)
{
    if (running_priority(one) != running_priority(other)) {
        return running_priority(one) > running_priority(other);
    }
    if (one->is_backup != other->is_backup) {
        return one->is_backup;
    }
    return one->task.priority > other->task.priority;
}

/* The job that runs, or none. */
static struct running *runner_of(struct running *tasks, size_t count)
{
    struct running *first = NULL;
    for (struct running *one = tasks; one < tasks + count; one++) {
        if (one->has_job && (first == NULL || goes_before(one, first))) {
            first = one;
        }
    }
    return first;
}

/* What a tick shows of the job that runs: its task's priority, with the top bit set for a backup, or 0 for none. */
static uint8_t shown_of(const struct running *one)
{
    if (one == NULL) {
        return 0;
    }
    return (uint8_t)(one->task.priority + (one->is_backup ? BACKUP_BIT : 0));
}

/* The job that runs does one tick of its work, which a fault throws away. */
static void run_one(struct running *one, size_t tick, bool is_struck, uint64_t *counts)
{
    counts[one->is_backup ? FQ_BACKUPS : FQ_FIRST_ATTEMPTS]++;
    one->left--;
    if (is_struck) {
        one->is_backup = true;
        one->left = one->task.backup;
    }
    if (one->left == 0) {
        uint64_t took = tick - one->released_at + 1;
        one->longest = took > one->longest ? took : one->longest;
        one->has_job = false;
        counts[FQ_FINISHED]++;
    }
}

/* One tick: releases, the job that runs, the fault, the deadlines. Gives what the tick shows. */
static uint8_t run_tick(struct running *tasks, size_t count, const struct ticks *ticks, size_t tick, uint64_t *counts)
{
    for (size_t index = 0; index < count; index++) {
        struct running *one = &tasks[index];
        if (releases(ticks, tick, one->task.priority)) {
            *one = (struct running){one->task, true, false, one->task.cost, tick, one->longest};
            counts[FQ_RELEASED]++;
        }
    }
    struct running *first = runner_of(tasks, count);
    uint8_t shown = shown_of(first);
    if (first == NULL) {
        counts[FQ_IDLING]++;
    } else {
        run_one(first, tick, is_marked(ticks, tick), counts);
    }
    for (struct running *one = tasks; one < tasks + count; one++) {
        if (one->has_job && tick - one->released_at + 1 == one->task.deadline) {
            one->has_job = false;
            counts[FQ_MISSED]++;
        }
    }
    return shown;
}

/* The tick is tick 0, and jobs were released before it; the difference of the two is right in 64 bits all the same. */
uint64_t plain_tick(const struct table *table, const uint8_t *bytes, struct job *jobs, uint64_t *longest)
{
    struct running tasks[FQ_MOST_TASKS];
    struct ticks ticks = {bytes, LOG_TICK_BYTES, LOG_TICK_BYTES};
    uint64_t counts[FQ_COUNTS] = {0};
    for (size_t place = 0; place < table->count; place++) {
        const struct job *job = &jobs[place];
        tasks[place] = (struct running){table->records[place], job->left > 0, job->is_backup, job->left, 0 - job->age, longest[place]};
    }
    run_tick(tasks, table->count, &ticks, 0, counts);
    for (size_t place = 0; place < table->count; place++) {
        const struct running *one = &tasks[place];
        jobs[place] = one->has_job ? (struct job){one->left, 1 - one->released_at, one->is_backup} : (struct job){0, 0, false};
        longest[place] = one->longest;
    }
    return counts[FQ_MISSED];
}

/* The tasks of a table, none with a job. */
static void take_tasks(const struct table *table, struct running *tasks)
{
    for (size_t place = 0; place < table->count; place++) {
        tasks[place] = (struct running){.task = table->records[place]};
    }
}

/* Goes over a log that is good, and counts. */
static void count_log(const struct table *table, const struct ticks *log, struct running *tasks, uint64_t *counts)
{
    take_tasks(table, tasks);
    for (size_t tick = 0; tick < log->length / LOG_TICK_BYTES; tick++) {
        run_tick(tasks, table->count, log, tick, counts);
    }
    for (size_t place = 0; place < table->count; place++) {
        counts[FQ_UNFINISHED] += tasks[place].has_job;
    }
}

/* Minus the refusal of a sheet and a log or record: the sheet's own, then 19, then 14 to 17; or 0 with the table. */
static int64_t refused_ticks(const uint8_t *sheet, size_t len, const struct ticks *ticks, struct table *table)
{
    int64_t refusal = refused_shared(sheet, len, table);
    return refusal != 0 ? refusal : -(int64_t)judge_ticks(table, ticks);
}

/* Replays a log: its counts, or minus the refusal. */
int64_t plain_replay(const uint8_t *sheet, size_t len, const uint8_t *log, size_t log_len, uint64_t *counts,
                     size_t counts_len)
{
    struct table table;
    struct running tasks[FQ_MOST_TASKS];
    struct ticks ticks = {log, log_len, LOG_TICK_BYTES};
    int64_t refusal = refused_ticks(sheet, len, &ticks, &table);
    if (refusal == 0 && counts_len < FQ_COUNTS) {
        refusal = -FQ_SHORT_OUTPUT;
    }
    if (refusal == 0) {
        memset(counts, 0, FQ_COUNTS * sizeof counts[0]);
        count_log(&table, &ticks, tasks, counts);
    }
    return refusal;
}

/* How many jobs a log misses, or minus the refusal; of each record the most ticks that a finished job took. */
int64_t plain_missed(const uint8_t *sheet, size_t len, const uint8_t *log, size_t log_len, uint64_t *longest)
{
    struct table table;
    struct running tasks[FQ_MOST_TASKS];
    struct ticks ticks = {log, log_len, LOG_TICK_BYTES};
    uint64_t counts[FQ_COUNTS] = {0};
    int64_t refusal = refused_ticks(sheet, len, &ticks, &table);
    if (refusal != 0) {
        return refusal;
    }
    count_log(&table, &ticks, tasks, counts);
    for (size_t place = 0; place < table.count; place++) {
        longest[place] = tasks[place].longest;
    }
    return (int64_t)counts[FQ_MISSED];
}

/* Marks a fault, in a log that has none, wherever one may come and the work it throws away is most: in the last tick of a job. */
void plain_strike(const uint8_t *sheet, size_t len, uint8_t *log, size_t log_len)
{
    struct table table;
    struct running tasks[FQ_MOST_TASKS];
    struct ticks ticks = {log, log_len, LOG_TICK_BYTES};
    uint64_t counts[FQ_COUNTS] = {0}, gap = 0;
    if (refused_ticks(sheet, len, &ticks, &table) != 0) {
        return;
    }
    take_tasks(&table, tasks);
    for (size_t tick = 0; tick < log_len / LOG_TICK_BYTES; tick++) {
        struct running tried[FQ_MOST_TASKS];
        uint64_t before = counts[FQ_FINISHED];
        memcpy(tried, tasks, sizeof tried);
        run_tick(tried, table.count, &ticks, tick, counts);
        if (gap == 0 && counts[FQ_FINISHED] > before) {
            log[LOG_TICK_BYTES * tick + 1] = FAULT_BIT;
            gap = table.interval;
        }
        gap -= gap > 0;
        run_tick(tasks, table.count, &ticks, tick, counts);
    }
}

/* Checks a record: how many ticks from its start show what ran, or minus the refusal. */
int64_t plain_check(const uint8_t *sheet, size_t len, const uint8_t *record, size_t record_len)
{
    struct table table;
    struct ticks ticks = {record, record_len, RECORD_TICK_BYTES};
    struct running tasks[FQ_MOST_TASKS];
    uint64_t counts[FQ_COUNTS] = {0};
    int64_t refusal = refused_ticks(sheet, len, &ticks, &table);
    if (refusal != 0) {
        return refusal;
    }
    take_tasks(&table, tasks);
    size_t tick = 0;
    while (tick < record_len / RECORD_TICK_BYTES &&
           bytes_at(&ticks, tick)[2] == run_tick(tasks, table.count, &ticks, tick, counts)) {
        tick++;
    }
    return (int64_t)tick;
}

/* Makes each tick of a record show what ran; a record that is refused stays as it is. */
void plain_show(const uint8_t *sheet, size_t len, uint8_t *record, size_t record_len)
{
    struct table table;
    struct ticks ticks = {record, record_len, RECORD_TICK_BYTES};
    struct running tasks[FQ_MOST_TASKS];
    uint64_t counts[FQ_COUNTS] = {0};
    if (refused_ticks(sheet, len, &ticks, &table) != 0) {
        return;
    }
    take_tasks(&table, tasks);
    for (size_t tick = 0; tick < record_len / RECORD_TICK_BYTES; tick++) {
        record[RECORD_TICK_BYTES * tick + 2] = run_tick(tasks, table.count, &ticks, tick, counts);
    }
}
