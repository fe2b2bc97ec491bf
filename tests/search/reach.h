/*
 * Every state that the machine of a sheet can reach: a breadth-first search through all logs that the replay accepts,
 * of any length, one tick after the other, up to the first missed job.
 */
#ifndef REACH_H
#define REACH_H

#include <stdbool.h>
#include <stddef.h>
#include <stdint.h>

/* What a sheet may have to be gone through, and the room for a log. */
enum { MOST_REACH_TASKS = 4, HIGHEST_REACH_NUMBER = 63, REACH_LOG_ROOM = 1024 };

/* What was found: whether every state was gone through, or a log misses a job; without a miss, by place, the most ticks that a finished job took. */
struct reached {
    uint64_t states;
    bool is_whole;
    bool has_miss;
    size_t log_length;
    uint8_t log[REACH_LOG_ROOM];
    uint64_t longest[MOST_REACH_TASKS];
};

/* Goes through the states of a good sheet for the whole processor with at most four tasks and no number above 63; another one ends the program. */
struct reached reach(const uint8_t *sheet, size_t len);

#endif
