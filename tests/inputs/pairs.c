/* Random pairs of sheets for the release desk. */
#include "pairs.h"

enum { LONGEST_RELEASED = 60, MOST_MOVES = 3 };

/* A number one or two up or down, within a least and a most one. */
static uint16_t moved(struct generator *generator, uint16_t number, uint16_t least, uint16_t most)
{
    int to = number + (int)random_below(generator, 5) - 2;
    return (uint16_t)(to < least ? least : to > most ? most : to);
}

/* Moves one number of a draft a little, the interval or a record's, so that no rule breaks. */
static void move_one(struct generator *generator, struct draft *draft)
{
    uint16_t *numbers = draft->numbers[random_below(generator, draft->tasks)];
    uint16_t longer = numbers[COST] > numbers[BACKUP] ? numbers[COST] : numbers[BACKUP];
    switch (random_below(generator, FQ_RECORD_NUMBERS)) {
    case COST:
        numbers[COST] = moved(generator, numbers[COST], 1, numbers[DEADLINE]);
        break;
    case BACKUP:
        numbers[BACKUP] = moved(generator, numbers[BACKUP], 1, numbers[DEADLINE]);
        break;
    case DEADLINE:
        numbers[DEADLINE] = moved(generator, numbers[DEADLINE], longer, numbers[PERIOD]);
        break;
    case PERIOD:
        numbers[PERIOD] = moved(generator, numbers[PERIOD], numbers[DEADLINE], HIGHEST);
        break;
    case FAULT_PRIORITY:
        numbers[FAULT_PRIORITY] = moved(generator, numbers[FAULT_PRIORITY], 1, numbers[PRIORITY]);
        break;
    default:
        draft->interval = moved(generator, draft->interval, 1, HIGHEST);
        break;
    }
}

/* Draws the sheet in use, and moves up to three of its numbers for the candidate; sometimes the candidate is another sheet. */
struct pair random_pair(struct generator *generator, enum pair_damage damage)
{
    struct pair pair;
    unsigned tasks = 1 + (unsigned)random_below(generator, FQ_MOST_TASKS);
    struct draft old = timed_draft(generator, tasks, LONGEST_RELEASED);
    struct draft new = old;
    if (damage == OTHER_COUNT) {
        new = timed_draft(generator, 1 + (tasks + (unsigned)random_below(generator, FQ_MOST_TASKS - 1)) % FQ_MOST_TASKS, LONGEST_RELEASED);
    } else if (once_in(generator, 8)) {
        new = timed_draft(generator, tasks, LONGEST_RELEASED);
    } else {
        for (uint64_t moves = random_below(generator, MOST_MOVES + 1); moves > 0; moves--) {
            move_one(generator, &new);
        }
    }
    pair.in_use = damaged_sheet(generator, &old, damage == IN_USE_BROKEN || damage == BOTH_BROKEN ? BROKEN_RULE : NO_DAMAGE);
    pair.candidate = damaged_sheet(generator, &new, damage == CANDIDATE_BROKEN || damage == BOTH_BROKEN ? BROKEN_RULE : NO_DAMAGE);
    pair.protected_places = (uint8_t)random_below(generator, damage == ANY_PLACES ? UINT8_MAX + 1u : 1u << tasks);
    return pair;
}
