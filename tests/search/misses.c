/*
 * Searches for a missed job: random sheets for the whole processor with each fault priority at its priority, and for
 * each the logs that hurt most and random ones, replayed by the plain replay. A sheet that passes must miss nothing, and
 * no job of it may take longer than its task's response time. Sheets that do not pass are searched as well, to show that
 * the search finds misses where there are some.
 */
#include "../inputs/logs.h"
#include "../plain/plain.h"

#include <inttypes.h>
#include <stdio.h>
#include <stdlib.h>

enum {
    DEFAULT_SEED = 1,
    DEFAULT_COUNT = 2000,
    LONGEST_PERIOD = 40,
    FAULT_STARTS = 24,
    RANDOM_LOGS = 24,
    /* The kind by which the generator tells these rounds from those of other programs. */
    KIND_OF_ROUNDS = 12
};

/* What was found so far: the sheets that pass and those that do not, of each how many miss; of the passing ones the tasks, and those that took all of their response time. */
struct found {
    uint64_t passing;
    uint64_t passing_that_miss;
    uint64_t late;
    uint64_t late_that_miss;
    uint64_t logs;
    uint64_t tasks;
    uint64_t reached;
    uint64_t wrong;
};

/* What the logs of one sheet come to. */
struct search {
    struct sheet sheet;
    uint64_t missed;
    uint64_t longest[FQ_MOST_TASKS];
    uint64_t logs;
};

/* Gives each record its priority for a fault priority. */
static void raise_faults(struct draft *draft)
{
    for (unsigned place = 0; place < draft->tasks; place++) {
        draft->numbers[place][FAULT_PRIORITY] = draft->numbers[place][PRIORITY];
    }
}

/* Replays a log and adds what it shows; a log that is refused ends the program. */
static void replay(struct search *search, const struct log *log)
{
    uint64_t longest[FQ_MOST_TASKS] = {0};
    int64_t missed = plain_missed(search->sheet.bytes, search->sheet.length, log->bytes, log->length, longest);
    if (missed < 0) {
        fprintf(stderr, "a log of the search is refused with %" PRId64 "\n", -missed);
        exit(2);
    }
    search->missed += (uint64_t)missed;
    search->logs++;
    for (unsigned place = 0; place < FQ_MOST_TASKS; place++) {
        search->longest[place] = longest[place] > search->longest[place] ? longest[place] : search->longest[place];
    }
}

/* All tasks released together, from a tick on, and again as soon as they may be; each task may have a start of its own. */
static struct log dense_log(const struct draft *draft, const unsigned *starts)
{
    struct log log = {.length = LOG_TICK_BYTES * LONGEST_LOG};
    for (unsigned place = 0; place < draft->tasks; place++) {
        for (size_t tick = starts[place]; tick < LONGEST_LOG; tick += draft->numbers[place][PERIOD]) {
            log.bytes[LOG_TICK_BYTES * tick] |= (uint8_t)(1u << (draft->numbers[place][PRIORITY] - 1));
        }
    }
    return log;
}

/* The faults of a dense log: from each of the first ticks on, as often as allowed; or where they throw the most work away. */
static void replay_struck(struct search *search, const struct draft *draft, const struct log *dense)
{
    for (size_t start = 0; start < FAULT_STARTS; start++) {
        struct log log = *dense;
        for (size_t tick = start; tick < LONGEST_LOG; tick += draft->interval) {
            log.bytes[LOG_TICK_BYTES * tick + 1] = FAULT_BIT;
        }
        replay(search, &log);
    }
    struct log struck = *dense;
    plain_strike(search->sheet.bytes, search->sheet.length, struck.bytes, struck.length);
    replay(search, &struck);
}

/* All logs for one sheet: released together; with starts of their own; random ones. */
static struct search searched(struct generator *generator, const struct draft *draft)
{
    struct search search = {.sheet = packed(draft)};
    unsigned starts[FQ_MOST_TASKS] = {0};
    struct log log = dense_log(draft, starts);
    replay_struck(&search, draft, &log);
    for (unsigned place = 0; place < draft->tasks; place++) {
        starts[place] = (unsigned)random_below(generator, LONGEST_PERIOD);
    }
    log = dense_log(draft, starts);
    replay_struck(&search, draft, &log);
    for (unsigned turn = 0; turn < RANDOM_LOGS; turn++) {
        log = random_log(generator, draft, NO_LOG_DAMAGE);
        replay(&search, &log);
    }
    return search;
}

/* Compares the longest jobs of a passing sheet with its response times. */
static void compare_times(struct found *found, const struct search *search, unsigned tasks)
{
    for (unsigned place = 0; place < tasks; place++) {
        uint64_t response = (uint64_t)plain_response(search->sheet.bytes, search->sheet.length, place);
        found->tasks++;
        found->reached += search->longest[place] == response;
        if (search->longest[place] > response) {
            print_sheet("a job takes longer than its task's response time", &search->sheet);
            found->wrong++;
        }
    }
}

/* Adds what a passing sheet shows. */
static void add_passing(struct found *found, const struct search *search, unsigned tasks)
{
    found->passing++;
    compare_times(found, search, tasks);
    if (search->missed > 0) {
        print_sheet("passes, and a job is missed", &search->sheet);
        found->passing_that_miss++;
        found->wrong++;
    }
}

/* Searches one random sheet. */
static void run_round(struct found *found, uint64_t seed, uint64_t round)
{
    struct generator generator = generator_of(seed, KIND_OF_ROUNDS, round);
    unsigned tasks = 1 + (unsigned)random_below(&generator, FQ_MOST_TASKS);
    struct draft draft = timed_draft(&generator, tasks, 2 + (unsigned)random_below(&generator, LONGEST_PERIOD - 1));
    set_whole(&draft);
    raise_faults(&draft);
    struct search search = searched(&generator, &draft);
    found->logs += search.logs;
    if (plain_verdict(search.sheet.bytes, search.sheet.length) == 1) {
        add_passing(found, &search, draft.tasks);
    } else {
        found->late++;
        found->late_that_miss += search.missed > 0;
    }
}

/* Runs the rounds: misses [SEED [COUNT]]. Status 1: a passing sheet misses or takes too long, or the search finds nothing where there is something. */
int main(int argc, char **argv)
{
    struct found found = {0};
    uint64_t seed = argc > 1 ? strtoull(argv[1], NULL, 10) : DEFAULT_SEED;
    uint64_t count = argc > 2 ? strtoull(argv[2], NULL, 10) : DEFAULT_COUNT;
    for (uint64_t round = 0; round < count; round++) {
        run_round(&found, seed, round);
    }
    printf("%" PRIu64 " sheets that pass, %" PRIu64 " of them miss; %" PRIu64 " that do not, %" PRIu64 " of them miss; %" PRIu64 " logs\n",
           found.passing, found.passing_that_miss, found.late, found.late_that_miss, found.logs);
    printf("of the %" PRIu64 " tasks of those that pass %" PRIu64 " have a job that takes all of its response time; %" PRIu64 " sheets or tasks are against the theorem\n",
           found.tasks, found.reached, found.wrong);
    return found.wrong > 0 || found.passing == 0 || found.late_that_miss == 0 || found.reached == 0;
}
