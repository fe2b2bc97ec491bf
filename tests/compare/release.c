/* Release rounds: which of two sheets is to be loaded. */
#include "rounds.h"

#include "../inputs/pairs.h"

/* Asks which of two sheets to load, damaged in the way whose turn it is, with the verdict of each beside it. */
void release_round(struct comparison *comparison, struct tally *tally, uint64_t round)
{
    struct generator *generator = &comparison->generator;
    start_round(comparison, RELEASE, round);
    enum pair_damage damage = round % 2 == 0 ? NO_PAIR_DAMAGE : (enum pair_damage)(round / 2 % PAIR_DAMAGES);
    struct pair pair = random_pair(generator, damage);
    lay_sheet(comparison, pair.candidate.bytes, pair.candidate.length);
    int64_t candidate_passes = check_verdict(comparison);
    lay_sheet(comparison, pair.in_use.bytes, pair.in_use.length);
    int64_t answer = check_release(comparison, &pair.candidate, pair.protected_places);
    tally->release.pairs++;
    tally->release.released[refusal_in(answer)]++;
    tally->release.loaded += answer == 1;
    tally->release.loaded_over_late += answer == 1 && check_verdict(comparison) == 0;
    tally->release.kept_from_passing += answer == 0 && candidate_passes == 1;
}
