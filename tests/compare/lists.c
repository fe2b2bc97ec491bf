/* Steps from choice to choice and lists of choices, by the rule that they are asked by. */
#include "lists.h"

#include "../plain/plain.h"

enum {
    /* A list of fewer choices is walked step by step. */
    MOST_STEPS = 1000,
    /* So many tasks have 24 choices at most. */
    FEW_LISTED = 4,
    /* The bits of a choice, and of the fault priority of a record in it. */
    CHOICE_BITS = 32,
    FAULT_BITS = 4,
    HIGHEST_FAULT = 15
};

/* Places, choices and room that are there, and such as are not. */
void check_refused_by(struct comparison *comparison, enum rule rule)
{
    struct generator *generator = &comparison->generator;
    check_response(comparison, rule, random_below(generator, FQ_MOST_TASKS + 2));
    check_next(comparison, rule, 0);
    check_next(comparison, rule, (uint32_t)random_below(generator, UINT32_MAX));
    check_list(comparison, rule, 0);
    check_list(comparison, rule, random_below(generator, SHEET_ROOM));
}

/* Where the fault priority of the record at a place stands in a choice. */
static unsigned shift_of(unsigned place)
{
    return CHOICE_BITS - FAULT_BITS * (place + 1);
}

/* The choice in which each record's fault priority is its priority, or a random one that this allows. */
static uint32_t choice_of(struct generator *generator, const struct draft *draft, bool last)
{
    uint32_t choice = 0;
    for (unsigned place = 0; place < draft->tasks; place++) {
        uint32_t priority = draft->numbers[place][PRIORITY];
        uint32_t fault = last ? priority : 1 + (uint32_t)random_below(generator, priority);
        choice |= fault << shift_of(place);
    }
    return choice;
}

/* What is not allowed has a record's fault priority missing, too high or past the last record. */
void check_steps(struct comparison *comparison, enum rule rule, const struct draft *draft)
{
    struct generator *generator = &comparison->generator;
    unsigned place = (unsigned)random_below(generator, draft->tasks);
    unsigned shift = shift_of(place);
    uint32_t allowed = choice_of(generator, draft, false);
    uint32_t cleared = allowed & ~((uint32_t)HIGHEST_FAULT << shift);
    uint32_t priority = draft->numbers[place][PRIORITY];
    check_next(comparison, rule, 0);
    check_next(comparison, rule, allowed);
    check_next(comparison, rule, choice_of(generator, draft, true));
    check_next(comparison, rule, cleared);
    check_next(comparison, rule, cleared | (priority + 1) << shift);
    check_next(comparison, rule, cleared | (uint32_t)HIGHEST_FAULT << shift);
    check_next(comparison, rule, 1 + (uint32_t)random_below(generator, UINT32_MAX));
    if (draft->tasks < FQ_MOST_TASKS) {
        unsigned past = (unsigned)random_below(generator, FQ_MOST_TASKS - draft->tasks);
        check_next(comparison, rule, allowed | (uint32_t)1 << (FAULT_BITS * past));
        check_next(comparison, rule, (uint32_t)1 << (FAULT_BITS * past));
    }
}

/* Walks with the library alone from the start to the end, along the list that the plain desk wrote last; of a long list, evenly spread steps are taken. */
static void check_walk(struct comparison *comparison, enum rule rule, size_t choices)
{
    size_t stride = 1 + choices / MOST_STEPS;
    for (size_t index = 0; index < choices; index += stride) {
        uint32_t after = index == 0 ? 0 : listed_choice(comparison, index - 1);
        check_step(comparison, rule, after, listed_choice(comparison, index));
    }
    check_step(comparison, rule, choices == 0 ? 0 : listed_choice(comparison, choices - 1), 0);
}

/* Whether the lowest task of a draft is late, which decides its whole list. */
static bool is_lowest_late(const struct draft *draft)
{
    struct sheet sheet = packed(draft);
    size_t place = 0;
    while (draft->numbers[place][PRIORITY] != 1) {
        place++;
    }
    return plain_response(sheet.bytes, sheet.length, place) == 0;
}

/* Adds up a list of so many choices, of all that the draft has. */
static void add_list(struct list_tally *lists, const struct draft *draft, size_t choices, size_t all)
{
    bool is_partial = choices > 0 && choices < all;
    lists->all++;
    lists->of_eight += draft->tasks == FQ_MOST_TASKS;
    lists->with_lowest_late += is_lowest_late(draft);
    lists->empty_otherwise += choices == 0 && !is_lowest_late(draft);
    lists->partial += is_partial;
    lists->long_partial += is_partial && draft->tasks > FEW_LISTED;
    lists->choices += choices;
}

/* There is room for all choices at first, and then for those that the plain desk lists. */
void check_lists(struct comparison *comparison, struct tally *tally, enum rule rule, const struct draft *draft)
{
    struct generator *generator = &comparison->generator;
    size_t all = 1;
    for (unsigned priority = 1; priority <= draft->tasks; priority++) {
        all *= priority;
    }
    size_t choices = (size_t)check_list(comparison, rule, CHOICE_BYTES * all + random_below(generator, MARGIN));
    check_walk(comparison, rule, choices);
    check_list(comparison, rule, CHOICE_BYTES * choices);
    if (choices > 0) {
        check_list(comparison, rule, CHOICE_BYTES * choices - 1);
        check_list(comparison, rule, CHOICE_BYTES * (choices - 1));
        check_list(comparison, rule, random_below(generator, CHOICE_BYTES * choices));
    }
    add_list(&tally->lists[rule], draft, choices, all);
}
