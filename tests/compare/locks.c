/* Lock rounds: locks are asked for beside random start tables, and at the far end of the numbers. */
#include "rounds.h"

/* Asks for a lock, damaged in the way whose turn it is, with room for one margin, for more and for none. */
void lock_round(struct comparison *comparison, struct tally *tally, uint64_t round)
{
    struct generator *generator = &comparison->generator;
    start_round(comparison, LOCK, round);
    enum lock_damage damage = round % 2 == 0 ? NO_LOCK_DAMAGE : (enum lock_damage)(round / 2 % LOCK_DAMAGES);
    struct asking asking = random_asking(generator, damage);
    int64_t margin;
    int64_t answer = check_grant(comparison, &asking, 0, &margin);
    if (answer == -FQ_SHORT_OUTPUT) {
        answer = check_grant(comparison, &asking, 1 + random_below(generator, MARGINS_ROOM - 1), &margin);
        tally->locks.granted += answer == 1;
        tally->locks.negative_margins += margin < 0;
        tally->locks.positive_margins += margin > 0;
    }
    tally->locks.requests++;
    tally->locks.asked[refusal_in(answer)]++;
}

/* One job of a period of 2^32 - 1, in its last tick or filling all but its first, asked for at times up to 2^64 - 1; the answers are written down. */
void lock_edge_round(struct comparison *comparison)
{
    struct asking asking = {
        .period = UINT32_MAX, .count = 1, .starts_len = FQ_JOB_NUMBERS, .starts = {UINT32_MAX - 1, 1}, .uses_len = 1, .uses = {128},
        .resources_len = RESOURCES, .resources = {0, 0, 0, 0, 0, 0, 0, 128}, .priority = 8, .resource = 7, .length = UINT32_MAX};
    start_round(comparison, LOCK, 0);
    check_granting(comparison, &asking, 0, -1);
    asking.length = UINT32_MAX - 1;
    check_granting(comparison, &asking, 1, 0);
    asking.length = 1;
    check_granting(comparison, &asking, 1, (int64_t)UINT32_MAX - 2);
    /* 2^64 - 1 is a multiple of 2^32 - 1, so it stands at the start of a period, and the tick before it at the end of one. */
    asking.time = UINT64_MAX;
    check_granting(comparison, &asking, 1, (int64_t)UINT32_MAX - 2);
    asking.time = UINT64_MAX - 1;
    check_granting(comparison, &asking, -FQ_INSIDE_A_JOB, 0);
    asking.starts[0] = 1;
    asking.starts[1] = UINT32_MAX - 1;
    check_granting(comparison, &asking, -FQ_INSIDE_A_JOB, 0);
    asking.time = UINT64_MAX;
    check_granting(comparison, &asking, 1, 0);
    asking.length = UINT32_MAX;
    check_granting(comparison, &asking, 0, 1 - (int64_t)UINT32_MAX);
    asking.starts[0] = 2;
    check_granting(comparison, &asking, -FQ_BAD_STARTS, 0);
    asking.starts[0] = UINT32_MAX;
    asking.starts[1] = UINT32_MAX;
    check_granting(comparison, &asking, -FQ_BAD_STARTS, 0);
}
