/* Mend rounds: sheets typed by hand are mended. */
#include "rounds.h"

#include <string.h>

/* Mends a sheet typed by hand into outputs that are longer, just long enough and too short, for the sheet and for its changes. */
void mend_round(struct comparison *comparison, struct tally *tally, uint64_t round)
{
    struct generator *generator = &comparison->generator;
    start_round(comparison, MEND, round);
    struct draft draft = wide_draft(generator);
    struct sheet sheet = mistyped_sheet(generator, &draft);
    lay_sheet(comparison, sheet.bytes, sheet.length);
    int64_t answer = check_mend(comparison, SHEET_ROOM, FQ_CHANGES_NUMBERS);
    tally->mend.typed++;
    tally->mend.mended[refusal_in(answer)]++;
    if (answer < 0) {
        size_t room = random_below(generator, FQ_CHANGES_NUMBERS);
        check_mend(comparison, random_below(generator, SHEET_ROOM), room);
        return;
    }
    uint64_t changes = listed_changes(comparison);
    size_t size = (size_t)answer, numbers = 1 + FQ_CHANGE_NUMBERS * (size_t)changes;
    check_mend(comparison, size, numbers);
    check_mend(comparison, size - 1, numbers);
    check_mend(comparison, size, numbers - 1);
    size_t fewer = random_below(generator, numbers);
    check_mend(comparison, random_below(generator, size), fewer);
    size_t more = numbers + random_below(generator, 3);
    check_mend(comparison, size + random_below(generator, MARGIN), more);
    tally->mend.unchanged += changes == 0;
    tally->mend.changes += changes;
    tally->mend.most_changes = changes > tally->mend.most_changes ? changes : tally->mend.most_changes;
}

/* Sheets of eight tasks in which every deadline and every fault priority is mistyped and a byte is added: seventeen changes, in both editions. */
void mend_edge_round(struct comparison *comparison)
{
    static const uint8_t header[] = {0x80, 0x00, 0x64, 0x00, 0x14, 0x00, 0x13};
    uint8_t bytes[FQ_SHEET_BYTES + 1];
    start_round(comparison, MEND, 0);
    for (unsigned edition = 0; edition < 2; edition++) {
        size_t start = edition == 1 ? SHARED_HEADER_BYTES : HEADER_BYTES;
        size_t end = start + RECORD_BYTES * FQ_MOST_TASKS;
        memcpy(bytes, header, start);
        bytes[0] = (uint8_t)(header[0] + edition);
        for (unsigned place = 0; place < FQ_MOST_TASKS; place++) {
            const uint8_t record[] = {0x00, 0x01, 0x00, 0x02, 0xFF, 0xFF, 0xFF, 0xFE, (uint8_t)(0x10 * (place + 1))};
            memcpy(bytes + start + RECORD_BYTES * place, record, sizeof record);
        }
        bytes[end] = 0;
        lay_sheet(comparison, bytes, end + 1);
        check_mend(comparison, end, FQ_CHANGES_NUMBERS);
        check_mend(comparison, end, FQ_CHANGES_NUMBERS - 1);
        check_mend(comparison, end - 1, FQ_CHANGES_NUMBERS);
    }
}
