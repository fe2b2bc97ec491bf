/* The kinds of rounds of the comparison, a file each. */
#ifndef ROUNDS_H
#define ROUNDS_H

#include "tally.h"

/* The longest periods of small and of modest sheets. */
enum { LONGEST_SMALL = 30, LONGEST_MODEST = 500 };

/* A round of a kind: draws what is its turn, makes the calls on both sides and adds up what was met. */
typedef void round_run(struct comparison *comparison, struct tally *tally, uint64_t round);

round_run codec_round, analysis_round, replay_round, lock_round, mend_round, cores_round, release_round;

/* Judges, rewrites and mends sheets of every length. */
void codec_edge_round(struct comparison *comparison);

/* Asks for the least intervals at the far end, and for all of request 12's case, which random sheets do not reach or seldom. */
void analysis_edge_round(struct comparison *comparison, struct tally *tally);

/* Checks locks at the far end of the numbers, where going tick by tick takes too long. */
void lock_edge_round(struct comparison *comparison);

/* Mends the sheets with the most changes, which random sheets do not reach. */
void mend_edge_round(struct comparison *comparison);

#endif
