/* Analysis rounds: sheets near the edge between passing and late are asked for times, verdicts, intervals and choices. */
#include "lists.h"
#include "rounds.h"

#include "../plain/plain.h"

enum {
    /*
     * Of 400 analysis sheets, 1 has its eight tasks listed, 20 have fields of full width (half of them drawn like a codec sheet or with
     * sums at the edge of 32 bits), 40 are asked for their least interval, 100 have one to six tasks and are listed, and the other 239
     * are asked for times and the verdict only.
     */
    EIGHT_LISTED_EVERY = 400,
    FULL_WIDTH_EVERY = 20,
    LEAST_INTERVAL_EVERY = 10,
    LISTED_EVERY = 4,
    /* The longest periods, which bound the deadlines, of sheets that are not of full width. */
    LONGEST_LARGE = 5000,
    LONGEST_LISTED = 80,
    LONGEST_EIGHT_LISTED = 40,
    LONGEST_LEAST_INTERVAL = 60,
    LONGEST_LEAST_INTERVAL_FOUND = 600,
    /* One in so many sheets that pass at no interval at all is kept: these make the search try all 65,535. */
    NO_INTERVAL_KEPT = 8
};

/* Asks for the times and slacks at every place, at two past the last and at two far away, for the verdict, and for all of them at once, with enough room and with too little. */
static void check_times(struct comparison *comparison, struct tally *tally, const struct draft *draft)
{
    for (size_t place = 0; place < draft->tasks + 2; place++) {
        check_response(comparison, PASSING, place);
        tally->analysis.figures += check_slack(comparison, place, 1) == 1;
    }
    check_slack(comparison, random_below(&comparison->generator, draft->tasks), 0);
    check_slack(comparison, random_below(&comparison->generator, draft->tasks), 2);
    check_response(comparison, PASSING, SIZE_MAX / 2 + 1);
    check_response(comparison, PASSING, SIZE_MAX);
    check_every_time(comparison, FQ_TIME_NUMBERS * draft->tasks);
    check_every_time(comparison, FQ_TIMES_NUMBERS);
    check_every_time(comparison, random_below(&comparison->generator, FQ_TIME_NUMBERS * draft->tasks));
    if (check_verdict(comparison) == 1) {
        tally->analysis.passing++;
    } else {
        tally->analysis.late++;
    }
    tally->analysis.sheets++;
}

/* A draft that passes at some interval, most of the time, with an interval that need not be that one. */
static struct draft draft_for_least_interval(struct generator *generator)
{
    bool must_pass = once_in(generator, 4);
    unsigned limit = must_pass ? LONGEST_LEAST_INTERVAL_FOUND : LONGEST_LEAST_INTERVAL;
    for (;;) {
        unsigned longest = 4 + (unsigned)random_below(generator, limit - 3);
        struct draft draft = timed_draft(generator, 1 + (unsigned)random_below(generator, 5), longest);
        uint16_t interval = draft.interval;
        draft.interval = HIGHEST;
        struct sheet sheet = packed(&draft);
        draft.interval = interval;
        if (plain_verdict(sheet.bytes, sheet.length) == 1 ||
            (!must_pass && once_in(generator, NO_INTERVAL_KEPT))) {
            return draft;
        }
    }
}

/* A draft with fields of full width: near what just passes, like a codec sheet, or with the largest sums. */
static struct draft full_width_draft(struct generator *generator)
{
    switch (random_below(generator, 4)) {
    case 0:
        return wide_draft(generator);
    case 1:
        return heavy_draft(generator);
    default:
        return timed_draft(generator, 1 + (unsigned)random_below(generator, FQ_MOST_TASKS), HIGHEST);
    }
}

/* A draft with modest periods, in half of the cases small ones, where times meet deadlines often. */
static struct draft modest_draft(struct generator *generator)
{
    static const unsigned LIMITS[] = {LONGEST_SMALL, LONGEST_SMALL, LONGEST_MODEST, LONGEST_LARGE};
    unsigned limit = LIMITS[random_below(generator, 4)];
    unsigned longest = 4 + (unsigned)random_below(generator, limit - 3);
    return timed_draft(generator, 1 + (unsigned)random_below(generator, FQ_MOST_TASKS), longest);
}

/* A draft whose choices are listed: up to five tasks, and six in one case of sixteen. */
static struct draft draft_to_list(struct generator *generator)
{
    unsigned longest = 4 + (unsigned)random_below(generator, LONGEST_LISTED - 3);
    unsigned tasks = once_in(generator, 16) ? 6 : 1 + (unsigned)random_below(generator, 5);
    return timed_draft(generator, tasks, longest);
}

/* Lays the packed draft and asks for its times. */
static void check_draft(struct comparison *comparison, struct tally *tally, const struct draft *draft)
{
    struct sheet sheet = packed(draft);
    lay_sheet(comparison, sheet.bytes, sheet.length);
    check_times(comparison, tally, draft);
}

/* Asks for the assured times at every place, at two past the last and at two far away. A shared sheet is refused at each. */
static void check_assured_times(struct comparison *comparison, struct tally *tally, const struct draft *draft)
{
    bool is_assured = true;
    for (size_t place = 0; place < draft->tasks + 2; place++) {
        int64_t time = check_response(comparison, ASSURED, place);
        is_assured = is_assured && (place >= draft->tasks || time > 0);
    }
    check_response(comparison, ASSURED, SIZE_MAX / 2 + 1);
    check_response(comparison, ASSURED, SIZE_MAX);
    tally->assured.refused += draft->is_shared;
    tally->assured.assured += is_assured;
    tally->assured.not_assured += !draft->is_shared && !is_assured;
    tally->assured.assured_only += is_assured && check_verdict(comparison) == 0;
    tally->assured.passing_only += !draft->is_shared && !is_assured && check_verdict(comparison) == 1;
}

/* Steps and lists by the assured times; a shared draft is refused, and asked again with the whole processor. */
static void check_assured_lists(struct comparison *comparison, struct tally *tally, const struct draft *draft)
{
    struct draft whole = *draft;
    if (draft->is_shared) {
        check_steps(comparison, ASSURED, draft);
        check_refused_by(comparison, ASSURED);
        set_whole(&whole);
        struct sheet sheet = packed(&whole);
        lay_sheet(comparison, sheet.bytes, sheet.length);
        check_assured_times(comparison, tally, &whole);
    }
    check_steps(comparison, ASSURED, &whole);
    check_lists(comparison, tally, ASSURED, &whole);
}

/* Steps and lists of a draft by both rules. */
static void check_listed(struct comparison *comparison, struct tally *tally, const struct draft *draft)
{
    check_draft(comparison, tally, draft);
    check_steps(comparison, PASSING, draft);
    check_lists(comparison, tally, PASSING, draft);
    check_assured_times(comparison, tally, draft);
    check_assured_lists(comparison, tally, draft);
}

/* Draws a sheet of the sort whose turn it is and asks what is affordable for that sort. */
void analysis_round(struct comparison *comparison, struct tally *tally, uint64_t round)
{
    struct generator *generator = &comparison->generator;
    struct draft draft;
    start_round(comparison, ANALYSIS, round);
    if (round % EIGHT_LISTED_EVERY == 0) {
        draft = timed_draft(generator, FQ_MOST_TASKS, LONGEST_EIGHT_LISTED);
        check_listed(comparison, tally, &draft);
    } else if (round % FULL_WIDTH_EVERY == 1) {
        draft = full_width_draft(generator);
        check_draft(comparison, tally, &draft);
        check_assured_times(comparison, tally, &draft);
    } else if (round % LEAST_INTERVAL_EVERY == 2) {
        draft = draft_for_least_interval(generator);
        check_draft(comparison, tally, &draft);
        tally->analysis.least_intervals++;
        tally->analysis.least_intervals_of_none += check_least_interval(comparison) == 0;
        check_assured_times(comparison, tally, &draft);
    } else if (round % LISTED_EVERY == 3) {
        draft = draft_to_list(generator);
        check_listed(comparison, tally, &draft);
    } else {
        draft = modest_draft(generator);
        check_draft(comparison, tally, &draft);
        check_assured_times(comparison, tally, &draft);
    }
}

/*
 * One task of cost 1, deadline and period 65,535. With a backup of 65,534 it ends at 65,535 exactly, which a second
 * fault within that time would spoil, so only the interval 65,535 passes; with a backup of 65,535 none does. Plain
 * search takes too long for these, so their answers are written down.
 */
static void check_far_intervals(struct comparison *comparison)
{
    static const uint8_t last[] = {0x10, 0x00, 0x09, 0x00, 0x01, 0xFF, 0xFE, 0xFF, 0xFF, 0xFF, 0xFF, 0x11};
    static const uint8_t none[] = {0x10, 0x00, 0x09, 0x00, 0x01, 0xFF, 0xFF, 0xFF, 0xFF, 0xFF, 0xFF, 0x11};
    lay_sheet(comparison, last, sizeof last);
    check_interval(comparison, HIGHEST);
    lay_sheet(comparison, none, sizeof none);
    check_interval(comparison, 0);
}

/* Asks request 12's case, which passes and is not assured, and what it comes to with each fault priority at its priority, which does neither. */
static void check_case(struct comparison *comparison, struct tally *tally)
{
    struct draft draft = {
        .tasks = 3, .count = 3, .interval = 5, .round = 1, .share = 1,
        .numbers = {{1, 4, 50, 50, 3, 1}, {3, 1, 5, 25, 2, 1}, {1, 1, 25, 25, 1, 1}}};
    check_listed(comparison, tally, &draft);
    draft.numbers[0][FAULT_PRIORITY] = 3;
    draft.numbers[1][FAULT_PRIORITY] = 2;
    check_listed(comparison, tally, &draft);
}

/* Both are asked in the place of a first round. */
void analysis_edge_round(struct comparison *comparison, struct tally *tally)
{
    start_round(comparison, ANALYSIS, 0);
    check_far_intervals(comparison);
    check_case(comparison, tally);
}
