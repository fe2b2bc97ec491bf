/*
 * Runs random sheets, good and damaged, through every function of the library and through the plain desk,
 * and compares all that a caller can see.
 */
#include "rounds.h"

#include <ctype.h>
#include <errno.h>
#include <stdio.h>
#include <stdlib.h>
#include <string.h>

enum {
    DEFAULT_SEED = 1,
    DEFAULT_COUNT = 80000,
    /*
     * For so many codec sheets one analysis sheet is run, one log replayed and one record checked, one lock asked for, one sheet typed by
     * hand mended, one box placed, and one pair of sheets put to the release desk.
     */
    FOR_ANALYSIS = 20,
    FOR_REPLAY = 4,
    FOR_LOCK = 2,
    FOR_MEND = 4,
    FOR_CORES = 8,
    FOR_RELEASE = 4,
    NO_DIFFERENCE = 0,
    DIFFERENT_OR_NOTHING_RUN = 1,
    BAD_ARGUMENTS = 2
};

/* The kinds of rounds in their order, and for how many codec sheets there is one of each. */
static const struct {
    round_run *run;
    uint64_t codec_sheets;
} ROUNDS[] = {
    {codec_round, 1},
    {analysis_round, FOR_ANALYSIS},
    {replay_round, FOR_REPLAY},
    {lock_round, FOR_LOCK},
    {mend_round, FOR_MEND},
    {cores_round, FOR_CORES},
    {release_round, FOR_RELEASE},
};

/* Prints how the program is used. */
static void print_usage(FILE *stream)
{
    fprintf(stream,
            "usage: compare [SEED [COUNT]]\n"
            "Runs COUNT random sheets through reading and writing, COUNT / %d through the analysis and\n"
            "COUNT / %d logs and as many supplier's records through the replay, asks for COUNT / %d locks, mends COUNT / %d sheets\n"
            "typed by hand, places the records of COUNT / %d boxes and puts COUNT / %d pairs of sheets to the release desk,\n"
            "each through the library and through a plain implementation, and compares the answers.\n"
            "SEED and COUNT are whole numbers; the defaults are %d and %d.\n"
            "Status: 0 no difference, 1 a difference or nothing run, 2 bad arguments.\n",
            FOR_ANALYSIS, FOR_REPLAY, FOR_LOCK, FOR_MEND, FOR_CORES, FOR_RELEASE, DEFAULT_SEED, DEFAULT_COUNT);
}

/* Reads a whole number of decimal digits only. */
static bool read_number(const char *text, uint64_t *number)
{
    char *end;
    errno = 0;
    unsigned long long value = strtoull(text, &end, 10);
    *number = value;
    return isdigit((unsigned char)text[0]) && *end == '\0' && errno == 0;
}

/* Runs the rounds of each kind, after those at the edges. */
static void run_rounds(struct comparison *comparison, struct tally *tally)
{
    codec_edge_round(comparison);
    analysis_edge_round(comparison, tally);
    lock_edge_round(comparison);
    mend_edge_round(comparison);
    for (size_t kind = 0; kind < sizeof ROUNDS / sizeof ROUNDS[0]; kind++) {
        for (uint64_t round = 0; round < comparison->count / ROUNDS[kind].codec_sheets; round++) {
            ROUNDS[kind].run(comparison, tally, round);
        }
    }
}

/* Runs all rounds, prints what was found, and gives the status of the program. */
static int run(struct comparison *comparison)
{
    struct tally tally = {0};
    run_rounds(comparison, &tally);
    print_tally(comparison, &tally);
    if (!is_every_kind_met(&tally)) {
        puts("not every kind of sheet was run: COUNT is too small");
        return DIFFERENT_OR_NOTHING_RUN;
    }
    return comparison->differences == 0 ? NO_DIFFERENCE : DIFFERENT_OR_NOTHING_RUN;
}

/* Reads the arguments and runs the comparison. */
int main(int argc, char **argv)
{
    static struct comparison comparison = {.seed = DEFAULT_SEED, .count = DEFAULT_COUNT};
    if (argc == 2 && strcmp(argv[1], "--help") == 0) {
        print_usage(stdout);
        return NO_DIFFERENCE;
    }
    if (argc > 3 || (argc > 1 && !read_number(argv[1], &comparison.seed)) ||
        (argc > 2 && !read_number(argv[2], &comparison.count))) {
        print_usage(stderr);
        return BAD_ARGUMENTS;
    }
    if (comparison.count == 0) {
        puts("nothing was run: COUNT is 0");
        return DIFFERENT_OR_NOTHING_RUN;
    }
    return run(&comparison);
}
