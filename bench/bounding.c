/* Times, verdict, walk, list and least interval by the library's method, in C: what the method gains without the language. */
#include "bounding.h"

#include "climbs.h"
#include "starting.h"

enum {
    /* Room for something of each priority, at its number. */
    BY_PRIORITY = FQ_MOST_TASKS + 1,
    /* So many choices are tried before bounds are found, and up to so many records bounds are found at once. */
    FEW_CHOICES = 1,
    FEW_RECORDS = 4
};

/* For each priority, one more than the largest backup that its task bears: as M at 0, where the rule has one, as N at each fault priority. */
struct bounds {
    uint32_t limits[BY_PRIORITY][BY_PRIORITY];
};

/* What a walk and a list go by: how a sheet is read, what a choice has to meet, the first fault priority of the bounds, what a task bears at one, and whether a choice is within the bounds. */
struct rule {
    reading *read;
    meeting *meets;
    unsigned first_fault;
    bool (*bears)(const struct table *, unsigned, unsigned, uint32_t);
    bool (*is_within)(const struct table *, const struct bounds *);
};

/* The limit of a task: the largest backup is tried first, and what is below the limit so far needs no search. */
static uint32_t find_limit(const struct rule *rule, const struct table *table, unsigned own, unsigned fault)
{
    uint32_t largest = 0;
    uint32_t limit = 0;
    for (unsigned priority = 1; priority <= table->count; priority++) {
        if (table->records[priority].backup > largest) {
            largest = table->records[priority].backup;
        }
    }
    if (rule->bears(table, own, fault, largest)) {
        return largest + 1;
    }
    for (unsigned priority = 1; priority <= table->count; priority++) {
        uint32_t backup = table->records[priority].backup;
        if (limit <= backup && rule->bears(table, own, fault, backup)) {
            limit = backup + 1;
        }
    }
    return limit == 0 && rule->bears(table, own, fault, 0) ? 1 : limit;
}

/* Every limit. */
static void find_bounds(const struct rule *rule, const struct table *table, struct bounds *bounds)
{
    for (unsigned own = 1; own <= table->count; own++) {
        for (unsigned fault = rule->first_fault; fault <= own; fault++) {
            bounds->limits[own][fault] = find_limit(rule, table, own, fault);
        }
    }
}

/* Whether some task misses its own backup at its own priority, and so has no time under any choice. */
static bool is_hopeless(const struct rule *rule, const struct table *table)
{
    for (unsigned own = table->count; own > 0; own--) {
        if (!rule->bears(table, own, own, table->records[own].backup)) {
            return true;
        }
    }
    return false;
}

/* Whether each task's M and N under the present choice are below its limits; the M of a task is known before it is put in. */
static bool is_within(const struct table *table, const struct bounds *bounds)
{
    uint32_t tops[BY_PRIORITY] = {0};
    for (unsigned own = table->count; own > 0; own--) {
        const struct record *record = &table->records[own];
        if (tops[own] >= bounds->limits[own][0]) {
            return false;
        }
        for (unsigned fault = record->fault_priority; fault > 0 && tops[fault] < record->backup; fault--) {
            tops[fault] = record->backup;
        }
    }
    for (unsigned own = table->count; own > 0; own--) {
        unsigned fault = table->records[own].fault_priority;
        if (tops[fault] >= bounds->limits[own][fault]) {
            return false;
        }
    }
    return true;
}

/* Whether each task's N of the assured times is below its limit: of the tasks above it at its fault priority too, of those below it above that only. */
static bool is_within_assured(const struct table *table, const struct bounds *bounds)
{
    uint32_t tops[BY_PRIORITY + 1] = {0};
    for (unsigned own = table->count; own > 0; own--) {
        const struct record *record = &table->records[own];
        unsigned fault = record->fault_priority;
        uint32_t limit = bounds->limits[own][fault];
        if (record->backup >= limit || tops[fault] >= limit) {
            return false;
        }
        for (; fault > 0 && tops[fault] < record->backup; fault--) {
            tops[fault] = record->backup;
        }
    }
    for (unsigned own = table->count; own > 0; own--) {
        unsigned fault = table->records[own].fault_priority;
        if (tops[fault + 1] >= bounds->limits[own][fault]) {
            return false;
        }
    }
    return true;
}

static const struct rule by_response = {read_sheet, passes_from_lowest, 0, bears, is_within};
static const struct rule by_assured_time = {read_whole, is_assured_from_lowest, 1, bears_assured, is_within_assured};

/* Writes the choices within the bounds, or only counts them where out is null. */
static size_t list_within(const struct rule *rule, struct table *table, const struct bounds *bounds, uint8_t *out)
{
    size_t choices = 0;
    set_first(table);
    do {
        if (!rule->is_within(table, bounds)) {
            continue;
        }
        if (out != NULL) {
            write_choice(table, out, choices);
        }
        choices++;
    } while (set_following(table));
    return choices;
}

/* The response time of the record at a place. */
int64_t bounding_response(const uint8_t *sheet, size_t len, size_t place)
{
    return time_at(read_sheet, started_response, sheet, len, place);
}

/* The assured time of the record at a place. */
int64_t bounding_assured_response(const uint8_t *sheet, size_t len, size_t place)
{
    return time_at(read_whole, started_assured_time, sheet, len, place);
}

/* 1 where the sheet passes, 0 where it does not, or minus the refusal; like the library's, out of all response times. */
int64_t bounding_verdict(const uint8_t *sheet, size_t len)
{
    struct table table;
    uint8_t refusal = read_sheet(sheet, len, &table);
    bool is_late = false;
    if (refusal != 0) {
        return -refusal;
    }
    for (unsigned own = 1; own <= table.count; own++) {
        is_late = (started_response(&table, own) == 0) | is_late;
    }
    return !is_late;
}

/* The least interval at which the sheet passes, 0 where there is none, or minus the refusal: the longest is tried first, then what lies between is halved. */
int64_t bounding_least_interval(const uint8_t *sheet, size_t len)
{
    struct table table;
    uint8_t refusal = read_sheet(sheet, len, &table);
    uint32_t failing = 1;
    uint32_t passing = HIGHEST;
    if (refusal != 0) {
        return -refusal;
    }
    table.interval = HIGHEST;
    if (!passes_from_lowest(&table)) {
        return 0;
    }
    while (failing + 1 < passing) {
        table.interval = (failing + passing) / 2;
        if (passes_from_lowest(&table)) {
            passing = table.interval;
        } else {
            failing = table.interval;
        }
    }
    return passing;
}

/* The next choice that meets a rule after any allowed one, 0 at the end, or minus the refusal; a few are tried before bounds are found. */
static int64_t next_choice(const struct rule *rule, const uint8_t *sheet, size_t len, uint32_t after)
{
    struct table table;
    struct bounds bounds;
    bool is_left;
    unsigned few = FEW_CHOICES;
    uint8_t refusal = rule->read(sheet, len, &table);
    if (refusal == 0) {
        refusal = set_after(&table, after, &is_left);
    }
    if (refusal != 0) {
        return -refusal;
    }
    if (!is_on_time(&table, LOWEST)) {
        return 0;
    }
    for (; is_left && few > 0 && !rule->meets(&table); few--) {
        is_left = set_following(&table);
    }
    if (is_left && few == 0) {
        if (is_hopeless(rule, &table)) {
            return 0;
        }
        find_bounds(rule, &table, &bounds);
        while (is_left && !rule->is_within(&table, &bounds)) {
            is_left = set_following(&table);
        }
    }
    return is_left ? pack_choice(&table) : 0;
}

/* Writes every choice that meets a rule, and answers how many, or minus the refusal. */
static int64_t list_sheet(const struct rule *rule, const uint8_t *sheet, size_t len, uint8_t *out, size_t out_len)
{
    struct table table;
    struct bounds bounds;
    uint8_t refusal = rule->read(sheet, len, &table);
    if (refusal != 0) {
        return -refusal;
    }
    if (!is_on_time(&table, LOWEST) || (table.count > FEW_RECORDS && is_hopeless(rule, &table))) {
        return 0;
    }
    find_bounds(rule, &table, &bounds);
    if (out_len < CHOICE_BYTES * count_choices(table.count)
        && out_len < CHOICE_BYTES * list_within(rule, &table, &bounds, NULL)) {
        return -FQ_SHORT_OUTPUT;
    }
    return (int64_t)list_within(rule, &table, &bounds, out);
}

/* The next passing choice. */
int64_t bounding_next(const uint8_t *sheet, size_t len, uint32_t after)
{
    return next_choice(&by_response, sheet, len, after);
}

/* The passing choices. */
int64_t bounding_list(const uint8_t *sheet, size_t len, uint8_t *out, size_t out_len)
{
    return list_sheet(&by_response, sheet, len, out, out_len);
}

/* The next assured choice. */
int64_t bounding_assured_next(const uint8_t *sheet, size_t len, uint32_t after)
{
    return next_choice(&by_assured_time, sheet, len, after);
}

/* The assured choices. */
int64_t bounding_assured_list(const uint8_t *sheet, size_t len, uint8_t *out, size_t out_len)
{
    return list_sheet(&by_assured_time, sheet, len, out, out_len);
}
