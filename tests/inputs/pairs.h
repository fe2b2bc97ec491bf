/* Random pairs of sheets for the release desk: the one in use, and a candidate that is mostly a little different. */
#ifndef PAIRS_H
#define PAIRS_H

#include "sheets.h"

/* What is done to a pair of good sheets of the same count. */
enum pair_damage {
    NO_PAIR_DAMAGE,
    IN_USE_BROKEN,
    CANDIDATE_BROKEN,
    BOTH_BROKEN,
    OTHER_COUNT,
    ANY_PLACES,
    PAIR_DAMAGES
};

/* What fq_release is given. */
struct pair {
    struct sheet in_use;
    struct sheet candidate;
    uint8_t protected_places;
};

/* A pair with some damage done to it. */
struct pair random_pair(struct generator *generator, enum pair_damage damage);

#endif
