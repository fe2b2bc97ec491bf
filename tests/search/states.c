/*
 * Searches tiny sheets for a missed job through all states of the machine: every log of any length that the replay
 * accepts. A sheet that is assured must miss nothing, and no job of it may take longer than its task's assured time. Of the
 * sheets that pass by request 3's equations with lowered fault priorities some do miss; how many is printed. Each log that
 * misses is replayed, and random logs of the sheets that miss nothing are, too, by the plain replay.
 */
#include "../inputs/logs.h"
#include "../plain/plain.h"
#include "reach.h"

#include <inttypes.h>
#include <stdio.h>
#include <stdlib.h>

enum {
    DEFAULT_SEED = 1,
    DEFAULT_COUNT = 300,
    /* The kind by which the generator tells these rounds from those of other programs. */
    KIND_OF_ROUNDS = 25,
    RANDOM_LOGS = 8,
    /* So often a sheet is drawn again until it is what the round wants; after that it is taken as it is. */
    MOST_DRAWS = 20000
};

/* What a round wants: any sheet, or lowered fault priorities and deadlines that are just met, by the assured times or by request 3's; of each rule also sheets that the other one does not let through, and of request 3's such that are like request 12's case. */
enum wanted { ANY, JUST_ASSURED, ASSURED_ONLY, JUST_PASSING, PASSING_ONLY, CARRYING, WANTS };

/* How many sheets of a kind there were, and how many of them miss. */
struct kind {
    uint64_t sheets;
    uint64_t missing;
};

/* What was found so far: sheets that are assured and pass, that are assured only, that pass only, and neither; of the assured ones the tasks, and those with a job that took all of its assured time. */
struct found {
    struct kind both;
    struct kind assured_only;
    struct kind passing_only;
    struct kind neither;
    uint64_t raised;
    uint64_t too_large;
    uint64_t states;
    uint64_t logs;
    uint64_t tasks;
    uint64_t reached;
    uint64_t wrong;
};

/* Request 12's case: the sheet of docs/RUNS.md that passes and misses. */
static const struct sheet CASE = {
    30, {0x30, 0x00, 0x05, 0x00, 0x01, 0x00, 0x04, 0x00, 0x32, 0x00, 0x32, 0x31, 0x00, 0x03, 0x00, 0x01, 0x00, 0x05,
         0x00, 0x19, 0x21, 0x00, 0x01, 0x00, 0x01, 0x00, 0x19, 0x00, 0x19, 0x11}};

/* Whether the sheet passes by request 3's equations. */
static bool is_passing(const struct sheet *sheet)
{
    return plain_verdict(sheet->bytes, sheet->length) == 1;
}

/* Whether the sheet is assured. */
static bool is_assured(const struct sheet *sheet)
{
    return plain_is_assured(sheet->bytes, sheet->length) == 1;
}

/* Whether each fault priority is the task's own priority. */
static bool is_raised(const struct draft *draft)
{
    for (unsigned place = 0; place < draft->tasks; place++) {
        if (draft->numbers[place][FAULT_PRIORITY] != draft->numbers[place][PRIORITY]) {
            return false;
        }
    }
    return true;
}

/* Whether a sheet meets a rule, and the time of the record at a place by it. */
struct rule {
    bool (*meets)(const struct sheet *sheet);
    int64_t (*time)(const uint8_t *sheet, size_t len, size_t place);
};

/* Puts the deadlines of a draft at their periods and then, if it meets a rule so, at the times by that rule. */
static void tighten(struct draft *draft, const struct rule *rule)
{
    for (unsigned place = 0; place < draft->tasks; place++) {
        draft->numbers[place][DEADLINE] = draft->numbers[place][PERIOD];
    }
    struct sheet sheet = packed(draft);
    for (unsigned place = 0; place < draft->tasks && rule->meets(&sheet); place++) {
        draft->numbers[place][DEADLINE] = (uint16_t)rule->time(sheet.bytes, sheet.length, place);
    }
}

/* A tiny draft that may be what the round wants. */
static struct draft drawn_draft(struct generator *generator, enum wanted wanted)
{
    static const struct rule ASSURED = {is_assured, plain_assured_response}, PASSING = {is_passing, plain_response};
    struct draft draft = wanted == CARRYING ? carrying_draft(generator) : tiny_draft(generator);
    if (wanted == JUST_ASSURED || wanted == ASSURED_ONLY) {
        tighten(&draft, &ASSURED);
    } else if (wanted != ANY) {
        tighten(&draft, &PASSING);
    }
    return draft;
}

/* Whether a draft is what the round wants. */
static bool is_wanted(const struct draft *draft, enum wanted wanted)
{
    struct sheet sheet = packed(draft);
    bool is_lowered = !is_raised(draft);
    switch (wanted) {
    case JUST_ASSURED:
        return is_lowered && is_assured(&sheet);
    case ASSURED_ONLY:
        return is_lowered && is_assured(&sheet) && !is_passing(&sheet);
    case JUST_PASSING:
        return is_lowered && is_passing(&sheet);
    case PASSING_ONLY:
    case CARRYING:
        return is_lowered && is_passing(&sheet) && !is_assured(&sheet);
    default:
        return true;
    }
}

/* A tiny draft that is what the round wants, most likely. */
static struct draft wanted_draft(struct generator *generator, enum wanted wanted)
{
    struct draft draft = drawn_draft(generator, wanted);
    for (unsigned draw = 1; draw < MOST_DRAWS && !is_wanted(&draft, wanted); draw++) {
        draft = drawn_draft(generator, wanted);
    }
    return draft;
}

/* Counts something that is against the theorem or against the search itself, and prints the sheet. */
static void add_wrong(struct found *found, const struct sheet *sheet, const char *reason)
{
    print_sheet(reason, sheet);
    found->wrong++;
}

/* Replays the log that misses; the plain replay has to accept it and to miss a job as well. */
static void replay_miss(struct found *found, const struct sheet *sheet, const struct reached *reached)
{
    uint64_t longest[FQ_MOST_TASKS] = {0};
    found->logs++;
    if (plain_missed(sheet->bytes, sheet->length, reached->log, reached->log_length, longest) <= 0) {
        add_wrong(found, sheet, "the replay does not miss what the search misses");
    }
}

/* Replays random logs of a sheet that the search found no miss in; none may miss, or take longer than the search found. */
static void replay_random(struct found *found, struct generator *generator, const struct draft *draft, const struct reached *reached)
{
    struct sheet sheet = packed(draft);
    for (unsigned turn = 0; turn < RANDOM_LOGS; turn++) {
        uint64_t longest[FQ_MOST_TASKS] = {0};
        struct log log = random_log(generator, draft, NO_LOG_DAMAGE);
        bool is_within = plain_missed(sheet.bytes, sheet.length, log.bytes, log.length, longest) == 0;
        for (unsigned place = 0; place < draft->tasks; place++) {
            is_within = is_within && longest[place] <= reached->longest[place];
        }
        found->logs++;
        if (!is_within) {
            add_wrong(found, &sheet, "a random log does what the search did not find");
        }
    }
}

/* Compares the longest jobs of an assured sheet with its assured times. */
static void compare_times(struct found *found, const struct sheet *sheet, const struct reached *reached, unsigned tasks)
{
    for (unsigned place = 0; place < tasks; place++) {
        uint64_t time = (uint64_t)plain_assured_response(sheet->bytes, sheet->length, place);
        found->tasks++;
        found->reached += reached->longest[place] == time;
        if (reached->longest[place] > time) {
            add_wrong(found, sheet, "a job takes longer than its task's assured time");
        }
    }
}

/* The kind of a sheet. */
static struct kind *kind_of(struct found *found, const struct sheet *sheet)
{
    if (is_assured(sheet)) {
        return is_passing(sheet) ? &found->both : &found->assured_only;
    }
    return is_passing(sheet) ? &found->passing_only : &found->neither;
}

/* Searches one sheet and adds what it shows. */
static void search_sheet(struct found *found, struct generator *generator, const struct draft *draft)
{
    struct sheet sheet = packed(draft);
    struct reached reached = reach(sheet.bytes, sheet.length);
    struct kind *kind = kind_of(found, &sheet);
    found->states += reached.states;
    if (!reached.is_whole && !reached.has_miss) {
        found->too_large++;
        return;
    }
    kind->sheets++;
    kind->missing += reached.has_miss;
    found->raised += is_raised(draft);
    if (reached.has_miss) {
        replay_miss(found, &sheet, &reached);
    } else {
        replay_random(found, generator, draft, &reached);
    }
    if (is_assured(&sheet)) {
        compare_times(found, &sheet, &reached, draft->tasks);
    }
    if (is_assured(&sheet) && reached.has_miss) {
        add_wrong(found, &sheet, "assured, and a job is missed");
    }
}

/* Searches request 12's case, which passes, is not assured, and misses; whatever else is found is wrong. */
static void search_case(struct found *found)
{
    struct reached reached = reach(CASE.bytes, CASE.length);
    if (!is_passing(&CASE) || is_assured(&CASE) || !reached.has_miss) {
        add_wrong(found, &CASE, "request 12's case is not found to pass, not to be assured and to miss");
    } else {
        replay_miss(found, &CASE, &reached);
        printf("request 12's case misses after %zu ticks, %" PRIu64 " states\n", reached.log_length / LOG_TICK_BYTES, reached.states);
    }
}

/* Prints one kind. */
static void print_kind(const char *name, const struct kind *kind)
{
    printf("%s: %" PRIu64 ", of them miss: %" PRIu64 "\n", name, kind->sheets, kind->missing);
}

/* Prints what was found. */
static void print_found(const struct found *found, uint64_t count)
{
    print_kind("sheets that are assured and pass", &found->both);
    print_kind("sheets that are assured and do not pass", &found->assured_only);
    print_kind("sheets that pass and are not assured", &found->passing_only);
    print_kind("sheets that are neither", &found->neither);
    printf("of the %" PRIu64 " tasks of assured sheets %" PRIu64 " have a job that takes all of its assured time\n", found->tasks, found->reached);
    printf("%" PRIu64 " sheets (%" PRIu64 " with each q at its p, %" PRIu64 " too large to search), %" PRIu64 " states, %" PRIu64 " logs replayed, %" PRIu64 " found wrong\n",
           count, found->raised, found->too_large, found->states, found->logs, found->wrong);
}

/* Runs the rounds: states [SEED [COUNT]]. Status 1: an assured sheet misses or takes too long, or the search finds nothing where there is something. */
int main(int argc, char **argv)
{
    struct found found = {0};
    uint64_t seed = argc > 1 ? strtoull(argv[1], NULL, 10) : DEFAULT_SEED;
    uint64_t count = argc > 2 ? strtoull(argv[2], NULL, 10) : DEFAULT_COUNT;
    search_case(&found);
    for (uint64_t round = 0; round < count; round++) {
        struct generator generator = generator_of(seed, KIND_OF_ROUNDS, round);
        struct draft draft = wanted_draft(&generator, (enum wanted)(round % WANTS));
        search_sheet(&found, &generator, &draft);
    }
    print_found(&found, count);
    return found.wrong > 0 || found.both.sheets == 0 || found.assured_only.sheets == 0 || found.passing_only.sheets == 0 ||
           found.neither.missing == 0 || found.reached == 0;
}
