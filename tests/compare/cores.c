/* Rounds of boxes with several cores: the records of a sheet are put on them. */
#include "rounds.h"

/* The highest-numbered core of so many records that the plain desk placed last. */
static unsigned cores_needed(const struct comparison *comparison, unsigned tasks)
{
    unsigned needed = 0;
    for (unsigned place = 0; place < tasks; place++) {
        needed = core_at(comparison, place) > needed ? core_at(comparison, place) : needed;
    }
    return needed;
}

/* How many cores a round asks for: four in every second round, in one of sixteen none, one too many or any number, and else one to four. */
static uint8_t cores_asked(struct generator *generator, uint64_t round)
{
    if (round % 2 == 0) {
        return FQ_MOST_CORES;
    }
    if (round % 16 != 7) {
        return (uint8_t)(1 + random_below(generator, FQ_MOST_CORES));
    }
    switch (random_below(generator, 3)) {
    case 0:
        return 0;
    case 1:
        return FQ_MOST_CORES + 1;
    default:
        return (uint8_t)random_below(generator, UINT8_MAX + 1);
    }
}

/* Places the records of a box, in one round of sixteen damaged and in one on any number of cores, into room for more, for just and for too few. */
void cores_round(struct comparison *comparison, struct tally *tally, uint64_t round)
{
    struct generator *generator = &comparison->generator;
    start_round(comparison, CORES, round);
    unsigned longest = 2 + (unsigned)random_below(generator, round % 16 == 0 ? LONGEST_MODEST : LONGEST_SMALL);
    struct draft draft = box_draft(generator, longest);
    struct sheet sheet = round % 16 == 3 ? damaged_sheet(generator, &draft, BROKEN_RULE) : packed(&draft);
    uint8_t cores = cores_asked(generator, round);
    lay_sheet(comparison, sheet.bytes, sheet.length);
    check_cores(comparison, cores, random_below(generator, draft.tasks));
    check_cores(comparison, cores, draft.tasks + random_below(generator, 3));
    int64_t answer = check_cores(comparison, cores, draft.tasks);
    tally->cores.boxes++;
    tally->cores.placed[refusal_in(answer)]++;
    tally->cores.too_small += answer > 0;
    tally->cores.needed[answer == 0 ? cores_needed(comparison, draft.tasks) : 0]++;
}
