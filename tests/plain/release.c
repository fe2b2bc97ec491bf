/*
 * The plain release desk: request 14's paragraph sentence by sentence, over the plain desk's own answers.
 */
#include "plain.h"
#include "sheet.h"

enum { LONGER_THAN_ANY_TIME = HIGHEST + 1 };

/* The response of a task; one that is late counts as longer than any time. */
static int64_t response(const uint8_t *sheet, size_t len, size_t place)
{
    int64_t time = plain_response(sheet, len, place);
    return time == 0 ? LONGER_THAN_ANY_TIME : time;
}

/* Whether a place is among the protected ones, place 0 lowest. */
static bool is_protected(uint8_t protected_places, size_t place)
{
    return (protected_places >> place) & 1;
}

/* 1 to load the candidate, 0 to keep the sheet in use. */
int64_t plain_release(const uint8_t *in_use, size_t in_use_len, const uint8_t *candidate, size_t candidate_len,
                      uint8_t protected_places)
{
    struct table old, new;
    int64_t refusal = refused(in_use, in_use_len, &old);
    if (refusal == 0) {
        refusal = refused(candidate, candidate_len, &new);
    }
    if (refusal != 0) {
        return refusal;
    }
    if (old.count != new.count) {
        return -FQ_DIFFERENT_COUNTS;
    }
    for (size_t place = old.count; place < FQ_MOST_TASKS; place++) {
        if (is_protected(protected_places, place)) {
            return -FQ_BAD_PLACE;
        }
    }
    if (plain_verdict(candidate, candidate_len) == 0) {
        return 0;
    }
    for (size_t place = 0; place < old.count; place++) {
        if (is_protected(protected_places, place) &&
            response(candidate, candidate_len, place) > response(in_use, in_use_len, place)) {
            return 0;
        }
    }
    return 1;
}
