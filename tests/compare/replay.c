/* Replay rounds: a log is replayed, and a supplier's record of the same tasks checked. */
#include "rounds.h"

enum { LONGEST_REPLAYED = 40 };

/* Checks a supplier's record of the log's tasks, right or damaged in the way whose turn it is. */
static void record_round(struct comparison *comparison, struct tally *tally, const struct draft *draft, uint64_t round)
{
    enum record_damage damage = round % 3 == 0 ? NO_RECORD_DAMAGE : (enum record_damage)(round / 3 % RECORD_DAMAGES);
    struct log record = random_record(&comparison->generator, draft, damage);
    int64_t answer = check_supplied(comparison, &record);
    tally->replay.checked[refusal_in(answer)]++;
    tally->replay.accepted += answer == (int64_t)(record.length / RECORD_TICK_BYTES);
    tally->replay.differing += answer >= 0 && answer < (int64_t)(record.length / RECORD_TICK_BYTES);
}

/* Replays a good log of a small sheet, damaged in the way whose turn it is, into room for more, for just and for too few counts. */
void replay_round(struct comparison *comparison, struct tally *tally, uint64_t round)
{
    struct generator *generator = &comparison->generator;
    start_round(comparison, REPLAY, round);
    unsigned longest = 2 + (unsigned)random_below(generator, LONGEST_REPLAYED - 1);
    struct draft draft = timed_draft(generator, 1 + (unsigned)random_below(generator, FQ_MOST_TASKS), longest);
    struct sheet sheet = packed(&draft);
    enum log_damage damage = round % 2 == 0 ? NO_LOG_DAMAGE : (enum log_damage)(round / 2 % LOG_DAMAGES);
    struct log log = random_log(generator, &draft, damage);
    lay_sheet(comparison, sheet.bytes, sheet.length);
    int64_t answer = check_replay(comparison, &log, FQ_COUNTS);
    check_replay(comparison, &log, FQ_COUNTS + random_below(generator, 3));
    check_replay(comparison, &log, random_below(generator, FQ_COUNTS));
    tally->replay.logs++;
    tally->replay.replayed[refusal_in(answer)]++;
    record_round(comparison, tally, &draft, round);
}
