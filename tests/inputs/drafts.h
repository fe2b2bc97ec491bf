/* Random drafts of timing sheets: their numbers before they are packed. */
#ifndef DRAFTS_H
#define DRAFTS_H

#include "../format.h"
#include "random.h"

/* A record's numbers, in the order in which fq_write takes them. */
enum number { COST, BACKUP, DEADLINE, PERIOD, PRIORITY, FAULT_PRIORITY };

/* A sheet before it is packed: its records, and a header that need not be true to them; round and share are packed if it is shared. */
struct draft {
    unsigned tasks;
    unsigned count;
    unsigned reserved;
    uint16_t interval;
    bool is_shared;
    uint16_t round;
    uint16_t share;
    uint16_t numbers[FQ_MOST_TASKS][FQ_RECORD_NUMBERS];
};

/* A good draft of 1 to 8 tasks whose fields use all 16 bits; smallest and largest values come often. */
struct draft wide_draft(struct generator *generator);

/* A good draft of so many tasks with periods up to the longest and a load near what just passes. */
struct draft timed_draft(struct generator *generator, unsigned tasks, unsigned longest);

/* A good draft of up to 8 tasks for a box with several cores: the tasks of one to four timed drafts in one. */
struct draft box_draft(struct generator *generator, unsigned longest);

/* A good draft of 5 to 8 tasks whose highest task is late only by a sum that takes 31 or more bits. */
struct draft heavy_draft(struct generator *generator);

/* A good draft of 1 to 4 tasks for the whole processor, with numbers so small that all states of its machine can be gone through. */
struct draft tiny_draft(struct generator *generator);

/* A good draft of three tasks like request 12's case: the rest of a backup can be carried into another task's window. */
struct draft carrying_draft(struct generator *generator);

/* Gives a draft the whole processor. */
void set_whole(struct draft *draft);

#endif
