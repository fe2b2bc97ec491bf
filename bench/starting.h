/* The library's searches written by hand in C: a climb starts at what a span of 1 has to cover, and where only yes or no is asked the deadline is tried first. */
#ifndef STARTING_H
#define STARTING_H

#include "reading.h"

/* The response time of a task, or 0 where it is late. */
uint32_t started_response(const struct table *table, unsigned own);

/* The assured time of a task, or 0 where it has none. */
uint32_t started_assured_time(const struct table *table, unsigned own);

/* Whether a task is on time with a largest backup: as M where the fault priority is 0, else as N. */
bool bears(const struct table *table, unsigned own, unsigned fault, uint32_t backup);

/* Whether a task has an assured time with a largest backup. */
bool bears_assured(const struct table *table, unsigned own, unsigned fault, uint32_t backup);

/* Whether a task is on time under the present choice. */
bool is_on_time(const struct table *table, unsigned own);

/* Whether no task is late, from the lowest up. */
bool passes_from_lowest(const struct table *table);

/* Whether each task has an assured time, from the lowest up. */
bool is_assured_from_lowest(const struct table *table);

#endif
