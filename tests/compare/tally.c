/* What a run of the comparison has met: how it is printed, and whether anything is missing. */
#include "tally.h"

#include <inttypes.h>
#include <stdio.h>

/* A refusal comes with a minus sign. */
unsigned refusal_in(int64_t answer)
{
    return answer < 0 ? (unsigned)-answer : 0;
}

/* Prints how often each answer was given, those that never were left out. */
static void print_answers(const char *name, const uint64_t *given)
{
    printf("%s:", name);
    for (unsigned answer = 0; answer < ANSWERS; answer++) {
        if (given[answer] > 0) {
            printf(" %u: %" PRIu64, answer, given[answer]);
        }
    }
    puts("");
}

/* Prints the mix of logs and records. */
static void print_replay(const struct replay_tally *replay)
{
    print_answers("logs by answer of fq_replay", replay->replayed);
    print_answers("records by refusal of fq_check", replay->checked);
    printf("records accepted: %" PRIu64 ", with a tick that differs: %" PRIu64 "\n", replay->accepted, replay->differing);
}

/* Prints the mix of requests for locks. */
static void print_locks(const struct lock_tally *locks)
{
    print_answers("requests for locks by refusal of fq_grant", locks->asked);
    printf("locks granted: %" PRIu64 ", margins above 0: %" PRIu64 ", below 0: %" PRIu64 "\n", locks->granted, locks->positive_margins,
           locks->negative_margins);
}

/* Prints the mix of sheets typed by hand. */
static void print_mend(const struct mend_tally *mend)
{
    print_answers("sheets typed by hand by refusal of fq_mend", mend->mended);
    printf("sheets mended without a change: %" PRIu64 ", changes: %" PRIu64 ", the most of one sheet: %" PRIu64 "\n", mend->unchanged,
           mend->changes, mend->most_changes);
}

/* Prints the mix of boxes. */
static void print_cores(const struct cores_tally *cores)
{
    print_answers("boxes by refusal of fq_cores", cores->placed);
    printf("boxes whose highest core is 1 to %d:", FQ_MOST_CORES);
    for (unsigned core = 1; core <= FQ_MOST_CORES; core++) {
        printf(" %" PRIu64, cores->needed[core]);
    }
    printf(", with a record that fits none: %" PRIu64 "\n", cores->too_small);
}

/* Prints the mix of pairs. */
static void print_release(const struct release_tally *release)
{
    print_answers("pairs by refusal of fq_release", release->released);
    printf("candidates loaded: %" PRIu64 ", in place of a sheet that does not pass: %" PRIu64 ", passing ones kept out: %" PRIu64 "\n",
           release->loaded, release->loaded_over_late, release->kept_from_passing);
}

/* Prints the mix of sheets by the assured times. */
static void print_assured(const struct assured_tally *assured)
{
    printf("sheets that are assured: %" PRIu64 ", that are not: %" PRIu64 ", that are and do not pass: %" PRIu64
           ", that pass and are not: %" PRIu64 ", refused as shared: %" PRIu64 "\n",
           assured->assured, assured->not_assured, assured->assured_only, assured->passing_only, assured->refused);
}

/* Prints the mix of lists by one rule. */
static void print_lists(const char *name, const struct list_tally *lists)
{
    printf("lists of %s choices: %" PRIu64 " (%" PRIu64 " of eight tasks), with a late lowest task: %" PRIu64
           ", empty otherwise: %" PRIu64 ", of some and not all: %" PRIu64 " (%" PRIu64 " with more than four tasks); choices: %" PRIu64 "\n",
           name, lists->all, lists->of_eight, lists->with_lowest_late, lists->empty_otherwise, lists->partial, lists->long_partial,
           lists->choices);
}

/* Prints the closing line. */
static void print_counts(const struct comparison *comparison, const struct tally *tally)
{
    const struct list_tally *lists = &tally->lists[PASSING];
    printf("%" PRIu64 " codec sheets, %" PRIu64 " analysis sheets (%" PRIu64 " pass, %" PRIu64 " do not), ", tally->codec.sheets,
           tally->analysis.sheets, tally->analysis.passing, tally->analysis.late);
    printf("%" PRIu64 " least intervals, %" PRIu64 " lists (%" PRIu64 " of eight tasks), ", tally->analysis.least_intervals, lists->all,
           lists->of_eight);
    printf("%" PRIu64 " logs, %" PRIu64 " requests for locks, %" PRIu64 " sheets typed by hand, %" PRIu64 " boxes, %" PRIu64 " pairs, ",
           tally->replay.logs, tally->locks.requests, tally->mend.typed, tally->cores.boxes, tally->release.pairs);
    printf("%" PRIu64 " checks, %" PRIu64 " differences\n", comparison->checks, comparison->differences);
}

/* Prints each kind in its turn. */
void print_tally(const struct comparison *comparison, const struct tally *tally)
{
    print_answers("codec sheets by answer of fq_judge", tally->codec.judged);
    print_replay(&tally->replay);
    print_locks(&tally->locks);
    print_mend(&tally->mend);
    print_cores(&tally->cores);
    print_release(&tally->release);
    printf("slacks with a figure: %" PRIu64 ", least intervals of none: %" PRIu64 "\n", tally->analysis.figures,
           tally->analysis.least_intervals_of_none);
    print_assured(&tally->assured);
    print_lists("passing", &tally->lists[PASSING]);
    print_lists("assured", &tally->lists[ASSURED]);
    print_counts(comparison, tally);
}

/* Whether good codec sheets and refused ones were met, and bad shares among them. */
static bool is_every_codec_met(const struct codec_tally *codec)
{
    return codec->judged[0] > 0 && codec->judged[0] < codec->sheets && codec->judged[FQ_BAD_SHARE] > 0;
}

/* Whether sheets that pass and such that do not, and least intervals, were met. */
static bool is_every_analysis_met(const struct analysis_tally *analysis)
{
    return analysis->passing > 0 && analysis->late > 0 && analysis->least_intervals > 0;
}

/* Whether a log and a record of each refusal of theirs was met, and such as are not refused. */
static bool is_every_replay_met(const struct replay_tally *replay)
{
    static const enum fq_refusal REFUSALS[] = {FQ_SHARED_PROCESSOR, FQ_ODD_LOG, FQ_STRANGE_BIT, FQ_EARLY_RELEASE, FQ_EARLY_FAULT};
    for (size_t index = 0; index < sizeof REFUSALS / sizeof REFUSALS[0]; index++) {
        if (replay->replayed[REFUSALS[index]] == 0 || replay->checked[REFUSALS[index]] == 0) {
            return false;
        }
    }
    return replay->replayed[0] > 0 && replay->accepted > 0 && replay->differing > 0;
}

/* Whether a request for a lock of each refusal was met, granted ones and others, and margins of both signs. */
static bool is_every_lock_met(const struct lock_tally *locks)
{
    return locks->asked[0] > locks->granted && locks->granted > 0 && locks->asked[FQ_BAD_STARTS] > 0 &&
           locks->asked[FQ_INSIDE_A_JOB] > 0 && locks->asked[FQ_BAD_REQUEST] > 0 && locks->asked[FQ_HELD] > 0 &&
           locks->negative_margins > 0 && locks->positive_margins > 0;
}

/* Whether sheets mended without a change, with changes and not at all were met. */
static bool is_every_mend_met(const struct mend_tally *mend)
{
    return mend->unchanged > 0 && mend->unchanged < mend->mended[0] && mend->mended[0] < mend->typed;
}

/* Whether boxes of each kind were met: refused for each reason of theirs, too small, and with each number of cores. */
static bool is_every_box_met(const struct cores_tally *cores)
{
    for (unsigned core = 1; core <= FQ_MOST_CORES; core++) {
        if (cores->needed[core] == 0) {
            return false;
        }
    }
    return cores->too_small > 0 && cores->placed[FQ_SHARED_PROCESSOR] > 0 && cores->placed[FQ_BAD_CORES] > 0;
}

/* Whether a pair of each refusal of its own was met, and candidates that are loaded and that are kept out. */
static bool is_every_pair_met(const struct release_tally *release)
{
    return release->released[FQ_DIFFERENT_COUNTS] > 0 && release->released[FQ_BAD_PLACE] > 0 && release->released[0] > release->loaded &&
           release->loaded_over_late > 0 && release->kept_from_passing > 0;
}

/* Whether sheets that are assured, are not and are refused were met, and such as the other rule judges otherwise. */
static bool is_every_assured_met(const struct assured_tally *assured)
{
    return assured->assured > assured->assured_only && assured->assured_only > 0 && assured->not_assured > assured->passing_only &&
           assured->passing_only > 0 && assured->refused > 0;
}

/* Whether lists of each kind were met by one rule. */
static bool is_every_list_met(const struct list_tally *lists)
{
    return lists->all > lists->of_eight && lists->of_eight > 0 && lists->with_lowest_late > 0 &&
           lists->with_lowest_late < lists->all && lists->long_partial > 0;
}

/* Each kind of round has to have met its own. */
bool is_every_kind_met(const struct tally *tally)
{
    return is_every_codec_met(&tally->codec) && is_every_analysis_met(&tally->analysis) && is_every_replay_met(&tally->replay) &&
           is_every_lock_met(&tally->locks) && is_every_mend_met(&tally->mend) && is_every_box_met(&tally->cores) &&
           is_every_pair_met(&tally->release) && is_every_assured_met(&tally->assured) && is_every_list_met(&tally->lists[PASSING]) &&
           is_every_list_met(&tally->lists[ASSURED]);
}
