/* The sheets that are measured, as the numbers that fq_write takes. */
#ifndef SHEETS_H
#define SHEETS_H

#include <fidhaqooban.h>

/* A count, an interval, and for each record cost, backup, deadline, period, priority, fault priority. */
struct sheet {
    uint8_t count;
    uint16_t interval;
    uint16_t fields[FQ_MOST_TASKS * FQ_RECORD_NUMBERS];
};

/* An ordinary sheet, and the same with a lowest task that is late, in the first record and in the last. */
extern const struct sheet everyday;
extern const struct sheet lowest_late_first;
extern const struct sheet lowest_late_last;

/* Sheets that take long: for one response, a verdict, a least interval, a list by its steps and by its choices. */
extern const struct sheet slow_response;
extern const struct sheet slow_verdict;
extern const struct sheet slow_interval;
extern const struct sheet slow_steps;
extern const struct sheet slow_choices;

#endif
