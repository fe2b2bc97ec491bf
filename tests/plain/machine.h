/*
 * The plain replay's machine, a tick at a time and from any jobs on.
 */
#ifndef PLAIN_MACHINE_H
#define PLAIN_MACHINE_H

#include "sheet.h"

/* A task's job between two ticks: what is left of it, nothing where there is none, and the ticks since its release. */
struct job {
    uint64_t left;
    uint64_t age;
    bool is_backup;
};

/* One tick with the two bytes that a log has for it; jobs and times are by place. Gives how many jobs are missed; a time rises to that of a job that finishes and took longer. */
uint64_t plain_tick(const struct table *table, const uint8_t *bytes, struct job *jobs, uint64_t *longest);

#endif
