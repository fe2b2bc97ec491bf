/*
 * The baseline's replay, as one would write it for firmware: one pass over the log, ticks that count down, and the job that
 * runs found by going through the priorities from the highest on.
 */
#include "climbing.h"

#include "climbs.h"

#include <string.h>

/* What a task is doing; its priority is its index. No work left means that it has no job. */
struct job {
    bool is_backup;
    unsigned left;
    unsigned rest;
    unsigned wait;
};

/* Releases the tasks of a tick, and answers whether one came too soon. */
static bool release(const struct table *table, struct job *jobs, unsigned releases, uint64_t *counts)
{
    for (unsigned priority = 1; priority <= table->count; priority++) {
        const struct record *record = &table->records[priority];
        if ((releases >> (priority - 1) & 1) == 0) {
            continue;
        }
        if (jobs[priority].wait != 0) {
            return true;
        }
        jobs[priority] = (struct job){false, record->cost, record->deadline, record->period};
        counts[FQ_RELEASED]++;
    }
    return false;
}

/* The priority of the task that runs, or 0. */
static unsigned runner(const struct table *table, const struct job *jobs)
{
    unsigned best = 0;
    unsigned best_key = 0;
    for (unsigned priority = table->count; priority > 0; priority--) {
        const struct job *job = &jobs[priority];
        if (job->left == 0) {
            continue;
        }
        unsigned key = job->is_backup ? 2u * table->records[priority].fault_priority + 1 : 2 * priority;
        if (key > best_key) {
            best = priority;
            best_key = key;
        }
    }
    return best;
}

/* Runs the task of a priority for one tick, which may be struck. */
static void run(const struct table *table, struct job *job, unsigned priority, bool is_struck, uint64_t *counts)
{
    counts[job->is_backup ? FQ_BACKUPS : FQ_FIRST_ATTEMPTS]++;
    job->left--;
    if (is_struck) {
        job->is_backup = true;
        job->left = table->records[priority].backup;
    }
    counts[FQ_FINISHED] += job->left == 0;
}

/* Ends a tick: deadlines and periods are one tick nearer. */
static void end_tick(const struct table *table, struct job *jobs, uint64_t *counts)
{
    for (unsigned priority = 1; priority <= table->count; priority++) {
        struct job *job = &jobs[priority];
        if (job->left != 0 && job->rest <= 1) {
            job->left = 0;
            counts[FQ_MISSED]++;
        }
        job->rest -= job->rest != 0;
        job->wait -= job->wait != 0;
    }
}

/* Replays a log in one pass: its refusal, or 0 with its counts. */
static uint8_t replay(const struct table *table, const uint8_t *log, size_t log_len, uint64_t *counts)
{
    struct job jobs[FQ_MOST_TASKS + 1] = {{0}};
    unsigned gap = 0;
    if (log_len % LOG_TICK_BYTES != 0) {
        return FQ_ODD_LOG;
    }
    for (size_t at = 0; at < log_len; at += LOG_TICK_BYTES) {
        bool is_marked = log[at + 1] >= FAULT_BIT;
        if (log[at] >> table->count != 0 || log[at + 1] % FAULT_BIT != 0) {
            return FQ_STRANGE_BIT;
        }
        if (release(table, jobs, log[at], counts)) {
            return FQ_EARLY_RELEASE;
        }
        if (is_marked && gap != 0) {
            return FQ_EARLY_FAULT;
        }
        unsigned priority = runner(table, jobs);
        if (priority == 0) {
            counts[FQ_IDLING]++;
        } else {
            run(table, &jobs[priority], priority, is_marked, counts);
        }
        end_tick(table, jobs, counts);
        gap = is_marked ? table->interval - 1 : gap - (gap != 0);
    }
    for (unsigned priority = 1; priority <= table->count; priority++) {
        counts[FQ_UNFINISHED] += jobs[priority].left != 0;
    }
    return 0;
}

/* The counts of a log, or minus the refusal. */
int64_t climbing_replay(const uint8_t *sheet, size_t len, const uint8_t *log, size_t log_len, uint64_t *counts,
                        size_t counts_len)
{
    struct table table;
    uint64_t replayed[FQ_COUNTS] = {0};
    uint8_t refusal = read_whole(sheet, len, &table);
    if (refusal == 0) {
        refusal = replay(&table, log, log_len, replayed);
    }
    if (refusal == 0 && counts_len < FQ_COUNTS) {
        refusal = FQ_SHORT_OUTPUT;
    }
    if (refusal != 0) {
        return -refusal;
    }
    memcpy(counts, replayed, sizeof replayed);
    return 0;
}
