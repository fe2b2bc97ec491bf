/* Codec rounds: sheets of full width are read, written, damaged and cut short. */
#include "lists.h"
#include "rounds.h"

#include <string.h>

enum {
    DAMAGES = 16,
    /* Every sixteenth codec sheet is also cut short at every length below its own. */
    CUTS_EVERY = 16
};

/* What is done to the codec sheets, in turn. */
static const enum damage DAMAGE_OF_ROUND[DAMAGES] = {
    NO_DAMAGE,    NO_DAMAGE,   NO_DAMAGE,    NO_DAMAGE,   NO_DAMAGE,        BROKEN_RULE,
    BROKEN_RULE,  BROKEN_RULE, BROKEN_RULE,  BROKEN_RULE, TWO_BROKEN_RULES, IMPOSSIBLE_COUNT,
    RANDOM_BYTES, BYTES_ADDED, BYTE_CHANGED, BIT_FLIPPED,
};

/* Rewrites the sheet into outputs too short, just long enough and too long. */
static void check_rewrites(struct comparison *comparison)
{
    size_t length = comparison->sheet_length;
    check_rewrite(comparison, length);
    check_rewrite(comparison, length > 0 ? length - 1 : 0);
    check_rewrite(comparison, random_below(&comparison->generator, length + 1));
    check_rewrite(comparison, length + random_below(&comparison->generator, MARGIN));
    check_rewrite(comparison, 0);
}

/* Asks for records at places that are there, just past the last one, and far away. */
static void check_records(struct comparison *comparison)
{
    check_record(comparison, random_below(&comparison->generator, FQ_MOST_TASKS));
    check_record(comparison, random_below(&comparison->generator, FQ_MOST_TASKS + 2));
    check_record(comparison, comparison->sheet_length / RECORD_BYTES);
    check_record(comparison, SIZE_MAX / 2 + 1);
    check_record(comparison, SIZE_MAX - random_below(&comparison->generator, 2));
}

/* Makes the calls that a refused sheet has to be refused by, whatever else they ask for. */
static void check_refused_calls(struct comparison *comparison)
{
    struct generator *generator = &comparison->generator;
    size_t room = random_below(generator, 2);
    check_slack(comparison, random_below(generator, FQ_MOST_TASKS + 2), room);
    check_every_time(comparison, random_below(generator, FQ_TIMES_NUMBERS + 1));
    check_verdict(comparison);
    check_least_interval(comparison);
    for (enum rule rule = PASSING; rule < RULES; rule++) {
        check_refused_by(comparison, rule);
    }
    check_replay(comparison, &(struct log){.length = random_below(generator, LONGEST_LOG)}, FQ_COUNTS);
    check_supplied(comparison, &(struct log){.length = random_below(generator, LONGEST_LOG)});
}

/* Cuts a sheet short at every length below its own. */
static void check_cuts(struct comparison *comparison, const struct sheet *sheet)
{
    for (size_t length = 0; length < sheet->length; length++) {
        lay_sheet(comparison, sheet->bytes, length);
        check_judge(comparison);
        check_rewrite(comparison, sheet->length);
        check_record(comparison, 0);
    }
}

/* What fq_write_shared is given to write a draft; the numbers past those given are random. */
static struct writing writing_of(struct generator *generator, const struct draft *draft)
{
    struct writing writing = {(uint8_t)draft->count, draft->interval, draft->round, draft->share, 0, {0}};
    writing.given = FQ_RECORD_NUMBERS * draft->tasks;
    memcpy(writing.numbers, draft->numbers, writing.given * sizeof writing.numbers[0]);
    for (size_t index = writing.given; index < MOST_GIVEN_NUMBERS; index++) {
        writing.numbers[index] = (uint16_t)random_below(generator, HIGHEST + 1);
    }
    return writing;
}

/* Changes, in half of the cases, what is given: each way in which it may differ from a sheet. */
static void change_writing(struct generator *generator, struct writing *writing)
{
    size_t record = random_below(generator, writing->given / FQ_RECORD_NUMBERS);
    enum number number = once_in(generator, 2) ? PRIORITY : FAULT_PRIORITY;
    uint16_t *priority = &writing->numbers[FQ_RECORD_NUMBERS * record + number];
    switch (random_below(generator, 16)) {
    case 0:
        writing->given = random_below(generator, writing->given);
        break;
    case 1:
        writing->given += 1 + random_below(generator, MOST_GIVEN_NUMBERS - writing->given);
        break;
    case 2:
        *priority = (uint16_t)(*priority + 256 * (1 + random_below(generator, 255)));
        break;
    case 3:
        *priority = (uint16_t)(*priority + 16 * (1 + random_below(generator, 15)));
        break;
    case 4:
        writing->count = (uint8_t)random_below(generator, UINT8_MAX + 1);
        break;
    case 5:
        writing->interval = 0;
        break;
    case 6:
        writing->share = writing->round;
        break;
    case 7:
        writing->round = (uint16_t)random_below(generator, 4);
        writing->share = (uint16_t)random_below(generator, 4);
        break;
    default:
        break;
    }
}

/* Writes a draft, changed or not, into outputs too short, just long enough and too long. */
static void check_writes(struct comparison *comparison, const struct draft *draft)
{
    struct generator *generator = &comparison->generator;
    struct writing writing = writing_of(generator, draft);
    change_writing(generator, &writing);
    size_t needed = HEADER_BYTES + RECORD_BYTES * (size_t)(writing.count % 16);
    check_write(comparison, &writing, needed);
    check_write(comparison, &writing, needed - 1);
    check_write(comparison, &writing, needed + 1 + random_below(generator, MARGIN));
    check_write(comparison, &writing, 0);
    needed += SHARED_HEADER_BYTES - HEADER_BYTES;
    check_write_shared(comparison, &writing, needed);
    check_write_shared(comparison, &writing, needed - 1);
    check_write_shared(comparison, &writing, needed - 4);
    check_write_shared(comparison, &writing, needed - 5);
    check_write_shared(comparison, &writing, needed + 1 + random_below(generator, MARGIN));
}

/* Damages a sheet in the way whose turn it is, then reads it, writes it and, sometimes, cuts it short. */
void codec_round(struct comparison *comparison, struct tally *tally, uint64_t round)
{
    start_round(comparison, CODEC, round);
    struct draft draft = wide_draft(&comparison->generator);
    struct sheet sheet = damaged_sheet(&comparison->generator, &draft, DAMAGE_OF_ROUND[round % DAMAGES]);
    lay_sheet(comparison, sheet.bytes, sheet.length);
    uint64_t differences = comparison->differences;
    uint8_t judgement = check_judge(comparison);
    /* A sheet that the library wrongly finds good is left at that, as its analysis could take very long. */
    if (judgement != 0 && comparison->differences == differences) {
        check_refused_calls(comparison);
    }
    tally->codec.sheets++;
    tally->codec.judged[judgement]++;
    check_rewrites(comparison);
    check_records(comparison);
    check_writes(comparison, &draft);
    if (round % CUTS_EVERY == 0) {
        check_cuts(comparison, &sheet);
    }
}

/* The bytes of a good sheet of eight tasks, in the edition of a first byte; that byte's count need not be theirs. */
static void fill_lengths(uint8_t *bytes, size_t room, uint8_t first)
{
    static const uint8_t header[] = {0x00, 0x00, 0x64, 0x00, 0x14, 0x00, 0x13};
    size_t start = first % 16 == 1 ? SHARED_HEADER_BYTES : HEADER_BYTES;
    memset(bytes, 0, room);
    memcpy(bytes, header, start);
    bytes[0] = first;
    for (unsigned place = 0; place < FQ_MOST_TASKS; place++) {
        const uint8_t record[] = {0x00, 0x01, 0x00, 0x02, 0x00, 0x50, 0x00, 0x60, (uint8_t)(0x11 * (place + 1))};
        memcpy(bytes + start + RECORD_BYTES * place, record, sizeof record);
    }
}

/* Each length from 0 to one past the longest sheet under each first byte, and so in both editions and at every count. */
void codec_edge_round(struct comparison *comparison)
{
    uint8_t bytes[FQ_SHEET_BYTES + 1];
    start_round(comparison, CODEC, 0);
    for (unsigned first = 0; first <= UINT8_MAX; first++) {
        fill_lengths(bytes, sizeof bytes, (uint8_t)first);
        for (size_t length = 0; length <= sizeof bytes; length++) {
            lay_sheet(comparison, bytes, length);
            check_judge(comparison);
            check_rewrite(comparison, length);
            check_mend(comparison, length, FQ_CHANGES_NUMBERS);
        }
    }
}
