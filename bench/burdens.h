/* What a span has to cover, for both C sides: each equation as a burden, and what it comes to. */
#ifndef BURDENS_H
#define BURDENS_H

#include "reading.h"

/* A fixed part, the jobs above a priority except one task's, and a backup per fault. */
struct burden {
    int64_t fixed;
    unsigned above;
    unsigned except;
    uint32_t backup;
};

/* How often something that comes once in each period comes within a span of at least 1. */
static inline uint32_t arrivals(uint32_t span, uint32_t period)
{
    return (span - 1) / period + 1;
}

/* What a burden comes to within a span; 64 bits, as a backup at every tick can pass 32. */
static inline int64_t due(const struct table *table, const struct burden *burden, uint32_t span)
{
    int64_t sum = burden->fixed + (int64_t)arrivals(span, table->interval) * burden->backup;
    sum += (int64_t)arrivals(span, table->round) * (table->round - table->share);
    for (unsigned priority = burden->above + 1; priority <= table->count; priority++) {
        const struct record *record = &table->records[priority];
        if (priority != burden->except) {
            sum += arrivals(span, record->period) * record->cost;
        }
    }
    return sum;
}

/* The least span from a start on that covers its burden, or 0 where it passes the deadline. */
static inline uint32_t climb(const struct table *table, const struct burden *burden, int64_t start, uint32_t deadline)
{
    int64_t span = start;
    while (span <= deadline) {
        int64_t needed = due(table, burden, (uint32_t)span);
        if (needed <= span) {
            return (uint32_t)span;
        }
        span = needed;
    }
    return 0;
}

/* Struck elsewhere: the fixed part is the cost, and every fault brings the backup. */
static inline struct burden elsewhere_burden(const struct table *table, unsigned own, uint32_t backup)
{
    return (struct burden){table->records[own].cost, own, own, backup};
}

/* Struck itself: the first fault brings the task's own backup, and each task between its two priorities comes once more. */
static inline struct burden itself_burden(const struct table *table, unsigned own, unsigned fault, uint32_t backup)
{
    const struct record *record = &table->records[own];
    struct burden burden = {(int64_t)record->cost + record->backup - backup, fault, own, backup};
    for (unsigned priority = fault + 1; priority < own; priority++) {
        burden.fixed += table->records[priority].cost;
    }
    return burden;
}

/* Assured: every other task above the fault priority counts, and every fault. */
static inline struct burden assured_burden(const struct table *table, unsigned own, unsigned fault, uint32_t backup)
{
    return (struct burden){table->records[own].cost, fault, own, backup};
}

/* The largest backup with at least a fault priority, one task left out, or 0; no lower priority can have it. */
static inline uint32_t largest_backup(const struct table *table, unsigned least, unsigned except)
{
    uint32_t largest = 0;
    for (unsigned priority = least; priority <= table->count; priority++) {
        const struct record *record = &table->records[priority];
        if (record->fault_priority >= least && record->backup > largest && priority != except) {
            largest = record->backup;
        }
    }
    return largest;
}

/* The largest backup that goes before a task's own, or is it; no priority below the task's fault priority can have it. */
static inline uint32_t backup_ahead(const struct table *table, unsigned own)
{
    unsigned fault = table->records[own].fault_priority;
    uint32_t largest = table->records[own].backup;
    for (unsigned priority = fault; priority <= table->count; priority++) {
        const struct record *record = &table->records[priority];
        unsigned least = priority > own ? fault : fault + 1;
        if (record->fault_priority >= least && record->backup > largest) {
            largest = record->backup;
        }
    }
    return largest;
}

#endif
