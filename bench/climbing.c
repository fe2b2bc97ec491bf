/*
 * The baseline of the measurements, as one would write it for firmware: the sheet is read once into a table
 * indexed by priority, and every least time is found by climbing from its start.
 */
#include "climbing.h"

#include "climbs.h"

/* What a walk and a list go by: how a sheet is read, and what a choice has to meet. */
struct rule {
    reading *read;
    meeting *meets;
};

static const struct rule passing = {read_sheet, passes};
static const struct rule assured = {read_whole, is_assured};

/* Writes the choices that meet a rule, or only counts them where out is null. */
static size_t list_choices(struct table *table, meeting *meets, uint8_t *out)
{
    size_t choices = 0;
    set_first(table);
    do {
        if (!meets(table)) {
            continue;
        }
        if (out != NULL) {
            write_choice(table, out, choices);
        }
        choices++;
    } while (set_following(table));
    return choices;
}

/* 0 where the sheet is good, or the refusal. */
uint8_t climbing_judge(const uint8_t *sheet, size_t len)
{
    struct table table;
    return read_sheet(sheet, len, &table);
}

/* Reads a sheet and writes it again. */
int64_t climbing_rewrite(const uint8_t *sheet, size_t len, uint8_t *out, size_t out_len)
{
    struct table table;
    uint8_t refusal = read_sheet(sheet, len, &table);
    if (refusal != 0) {
        return -refusal;
    }
    if (out_len < len) {
        return -FQ_SHORT_OUTPUT;
    }
    write_sheet(&table, out);
    return (int64_t)len;
}

/* The response time of the record at a place. */
int64_t climbing_response(const uint8_t *sheet, size_t len, size_t place)
{
    return time_at(read_sheet, response, sheet, len, place);
}

/* The assured time of the record at a place. */
int64_t climbing_assured_response(const uint8_t *sheet, size_t len, size_t place)
{
    return time_at(read_whole, assured_time, sheet, len, place);
}

/* 1 where the sheet passes, 0 where it does not, or minus the refusal. */
int64_t climbing_verdict(const uint8_t *sheet, size_t len)
{
    struct table table;
    uint8_t refusal = read_sheet(sheet, len, &table);
    return refusal != 0 ? -refusal : passes(&table);
}

/* The least interval at which the sheet passes, 0 where there is none, or minus the refusal: every one is tried from 1 up. */
int64_t climbing_least_interval(const uint8_t *sheet, size_t len)
{
    struct table table;
    uint8_t refusal = read_sheet(sheet, len, &table);
    if (refusal != 0) {
        return -refusal;
    }
    for (table.interval = 1; table.interval <= HIGHEST; table.interval++) {
        if (passes(&table)) {
            return table.interval;
        }
    }
    return 0;
}

/* The next choice that meets a rule after any allowed one, 0 at the end, or minus the refusal. */
static int64_t next_choice(const struct rule *rule, const uint8_t *sheet, size_t len, uint32_t after)
{
    struct table table;
    bool is_left;
    uint8_t refusal = rule->read(sheet, len, &table);
    if (refusal == 0) {
        refusal = set_after(&table, after, &is_left);
    }
    if (refusal != 0) {
        return -refusal;
    }
    while (is_left && !rule->meets(&table)) {
        is_left = set_following(&table);
    }
    return is_left ? pack_choice(&table) : 0;
}

/*
 * Writes every choice that meets a rule, and answers how many, or minus the refusal. Where there is room for all
 * choices nothing can be refused any more, so they are counted first only where there is less.
 */
static int64_t list_sheet(const struct rule *rule, const uint8_t *sheet, size_t len, uint8_t *out, size_t out_len)
{
    struct table table;
    uint8_t refusal = rule->read(sheet, len, &table);
    if (refusal != 0) {
        return -refusal;
    }
    if (out_len < CHOICE_BYTES * count_choices(table.count)
        && out_len < CHOICE_BYTES * list_choices(&table, rule->meets, NULL)) {
        return -FQ_SHORT_OUTPUT;
    }
    return (int64_t)list_choices(&table, rule->meets, out);
}

/* The next passing choice. */
int64_t climbing_next(const uint8_t *sheet, size_t len, uint32_t after)
{
    return next_choice(&passing, sheet, len, after);
}

/* The passing choices. */
int64_t climbing_list(const uint8_t *sheet, size_t len, uint8_t *out, size_t out_len)
{
    return list_sheet(&passing, sheet, len, out, out_len);
}

/* The next assured choice. */
int64_t climbing_assured_next(const uint8_t *sheet, size_t len, uint32_t after)
{
    return next_choice(&assured, sheet, len, after);
}

/* The assured choices. */
int64_t climbing_assured_list(const uint8_t *sheet, size_t len, uint8_t *out, size_t out_len)
{
    return list_sheet(&assured, sheet, len, out, out_len);
}
