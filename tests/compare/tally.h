/* What a run of the comparison has met, by kind of round, so that it shows what was drawn and fails where a kind is missing. */
#ifndef TALLY_H
#define TALLY_H

#include "checks.h"

/* Room for an answer that is no refusal, and for each refusal by its number. */
enum { ANSWERS = FQ_BAD_REQUEST + 1 };

/* Codec sheets, and the answers of fq_judge to them. */
struct codec_tally {
    uint64_t sheets;
    uint64_t judged[ANSWERS];
};

/* Analysis sheets, those that pass and those that do not; slacks with a figure; least intervals, and those of none. */
struct analysis_tally {
    uint64_t sheets;
    uint64_t passing;
    uint64_t late;
    uint64_t figures;
    uint64_t least_intervals;
    uint64_t least_intervals_of_none;
};

/* Sheets that are assured and that are not, of both those that the other rule judges otherwise, and the shared ones, which are refused. */
struct assured_tally {
    uint64_t assured;
    uint64_t not_assured;
    uint64_t assured_only;
    uint64_t passing_only;
    uint64_t refused;
};

/* The lists by one rule; partial ones have some of the choices and not all, long ones of them are of more than four tasks. */
struct list_tally {
    uint64_t all;
    uint64_t of_eight;
    uint64_t with_lowest_late;
    uint64_t empty_otherwise;
    uint64_t partial;
    uint64_t long_partial;
    uint64_t choices;
};

/* Logs by the answer of fq_replay, and records by the refusal of fq_check: accepted, and with a tick that differs. */
struct replay_tally {
    uint64_t logs;
    uint64_t replayed[ANSWERS];
    uint64_t checked[ANSWERS];
    uint64_t accepted;
    uint64_t differing;
};

/* Requests for locks by the refusal of fq_grant, and what became of the others. */
struct lock_tally {
    uint64_t requests;
    uint64_t asked[ANSWERS];
    uint64_t granted;
    uint64_t negative_margins;
    uint64_t positive_margins;
};

/* Sheets typed by hand by the refusal of fq_mend, those without a change, the changes, and the most of one sheet. */
struct mend_tally {
    uint64_t typed;
    uint64_t mended[ANSWERS];
    uint64_t unchanged;
    uint64_t changes;
    uint64_t most_changes;
};

/* Boxes by the refusal of fq_cores, by the highest core that is needed, and those with a record that fits none. */
struct cores_tally {
    uint64_t boxes;
    uint64_t placed[ANSWERS];
    uint64_t needed[FQ_MOST_CORES + 1];
    uint64_t too_small;
};

/* Pairs by the refusal of fq_release; candidates loaded, those in place of a sheet that does not pass, and passing ones kept out. */
struct release_tally {
    uint64_t pairs;
    uint64_t released[ANSWERS];
    uint64_t loaded;
    uint64_t loaded_over_late;
    uint64_t kept_from_passing;
};

/* All of them. */
struct tally {
    struct codec_tally codec;
    struct analysis_tally analysis;
    struct assured_tally assured;
    struct list_tally lists[RULES];
    struct replay_tally replay;
    struct lock_tally locks;
    struct mend_tally mend;
    struct cores_tally cores;
    struct release_tally release;
};

/* The refusal that an answer gives, or 0. */
unsigned refusal_in(int64_t answer);

/* Prints what was met, and last a line that counts sheets, checks and differences. */
void print_tally(const struct comparison *comparison, const struct tally *tally);

/* Whether at least one sheet, log, record, request and pair of each kind was met. */
bool is_every_kind_met(const struct tally *tally);

#endif
