/* The climbs of the baseline, and what the two C implementations of the measurements share: a call's reading of a sheet, and a choice set in a table. */
#ifndef CLIMBS_H
#define CLIMBS_H

#include "reading.h"

/* The priority of the lowest task. */
enum { LOWEST = 1 };

/* Reads a sheet for a call, and answers the call's refusal of it, or 0. */
typedef uint8_t reading(const uint8_t *sheet, size_t len, struct table *table);

/* The same as reading any sheet, but a processor that is shared is refused last. */
uint8_t read_whole(const uint8_t *sheet, size_t len, struct table *table);

/* Finds a task's time in a table, or 0. */
typedef uint32_t timing(const struct table *table, unsigned own);

/* Reads a sheet, and answers the time of the record at a place, 0 where it has none, or minus the refusal. */
int64_t time_at(reading *read, timing *time, const uint8_t *sheet, size_t len, size_t place);

/* Whether a table meets a rule under its present choice. */
typedef bool meeting(const struct table *table);

/* The assured time of a task, or 0 where it has none. */
uint32_t assured_time(const struct table *table, unsigned own);

/* The response time of a task, or 0 where it is late. */
uint32_t response(const struct table *table, unsigned own);

/* Whether no task is late; the tasks are tried in record order up to the first late one. */
bool passes(const struct table *table);

/* Whether each task has an assured time; the tasks are tried in record order up to the first that has none. */
bool is_assured(const struct table *table);

/* Sets the first choice of fault priorities. */
void set_first(struct table *table);

/* Sets the choice after the present one: whether there is one. */
bool set_following(struct table *table);

/* Sets the choice after the one of a number, or the first after 0, and whether there is one: the refusal of the number, or 0. */
uint8_t set_after(struct table *table, uint32_t after, bool *is_left);

/* The present choice as a number, four bits for each record. */
uint32_t pack_choice(const struct table *table);

/* Writes the present choice at an index of a list. */
void write_choice(const struct table *table, uint8_t *list, size_t index);

/* How many choices a sheet of so many tasks has. */
size_t count_choices(unsigned count);

#endif
