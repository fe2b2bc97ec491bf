/* The baseline's times, each by one climb from its fixed part, and the choices of a table, one after the other. */
#include "climbs.h"

#include "burdens.h"

/* The backup is the largest that goes before the task's own. */
uint32_t assured_time(const struct table *table, unsigned own)
{
    const struct record *record = &table->records[own];
    struct burden burden = assured_burden(table, own, record->fault_priority, backup_ahead(table, own));
    return climb(table, &burden, record->cost, record->deadline);
}

/* The priorities are those of the records in their order. */
bool is_assured(const struct table *table)
{
    for (unsigned place = 0; place < table->count; place++) {
        if (assured_time(table, table->priority_at[place]) == 0) {
            return false;
        }
    }
    return true;
}

/* The sheet's own refusal comes first. */
uint8_t read_whole(const uint8_t *sheet, size_t len, struct table *table)
{
    uint8_t refusal = read_sheet(sheet, len, table);
    return refusal == 0 && is_shared(table) ? FQ_SHARED_PROCESSOR : refusal;
}

/* The place is refused after the sheet. */
int64_t time_at(reading *read, timing *time, const uint8_t *sheet, size_t len, size_t place)
{
    struct table table;
    uint8_t refusal = read(sheet, len, &table);
    if (refusal != 0) {
        return -refusal;
    }
    if (place >= table.count) {
        return -FQ_BAD_PLACE;
    }
    return time(&table, table.priority_at[place]);
}

/* The time of a task while faults strike others only, or 0 where it is late. */
static uint32_t struck_elsewhere(const struct table *table, unsigned own)
{
    const struct record *record = &table->records[own];
    struct burden burden = elsewhere_burden(table, own, largest_backup(table, own, own));
    return climb(table, &burden, record->cost, record->deadline);
}

/* The time of a task that is struck itself, or 0 where it is late. */
static uint32_t struck_itself(const struct table *table, unsigned own)
{
    const struct record *record = &table->records[own];
    unsigned fault = record->fault_priority;
    struct burden burden = itself_burden(table, own, fault, largest_backup(table, fault, 0));
    return climb(table, &burden, (int64_t)record->cost + record->backup, record->deadline);
}

/* The longer of the two times. */
uint32_t response(const struct table *table, unsigned own)
{
    uint32_t elsewhere = struck_elsewhere(table, own);
    uint32_t itself = elsewhere == 0 ? 0 : struck_itself(table, own);
    return itself == 0 || itself > elsewhere ? itself : elsewhere;
}

/* The priorities are those of the records in their order. */
bool passes(const struct table *table)
{
    for (unsigned place = 0; place < table->count; place++) {
        if (response(table, table->priority_at[place]) == 0) {
            return false;
        }
    }
    return true;
}

/* Each fault priority is the lowest. */
void set_first(struct table *table)
{
    for (unsigned priority = 1; priority <= table->count; priority++) {
        table->records[priority].fault_priority = 1;
    }
}

/* The last record's fault priority moves fastest. */
bool set_following(struct table *table)
{
    for (unsigned place = table->count; place > 0; place--) {
        unsigned priority = table->priority_at[place - 1];
        struct record *record = &table->records[priority];
        if (record->fault_priority < priority) {
            record->fault_priority++;
            return true;
        }
        record->fault_priority = 1;
    }
    return false;
}

/* The first record's four bits are the highest. */
uint32_t pack_choice(const struct table *table)
{
    uint32_t choice = 0;
    for (unsigned place = 0; place < table->count; place++) {
        choice |= (uint32_t)table->records[table->priority_at[place]].fault_priority << (28 - 4 * place);
    }
    return choice;
}

/* Sets a choice from its number: whether it is allowed. */
static bool set_choice(struct table *table, uint32_t choice)
{
    for (unsigned place = 0; place < table->count; place++) {
        unsigned priority = table->priority_at[place];
        uint8_t fault = choice >> (28 - 4 * place) & 15;
        if (fault == 0 || fault > priority) {
            return false;
        }
        table->records[priority].fault_priority = fault;
    }
    return pack_choice(table) == choice;
}

/* After the last choice there is none. */
uint8_t set_after(struct table *table, uint32_t after, bool *is_left)
{
    *is_left = true;
    if (after == 0) {
        set_first(table);
    } else if (!set_choice(table, after)) {
        return FQ_BAD_CHOICE;
    } else {
        *is_left = set_following(table);
    }
    return 0;
}

/* Two bytes at a time. */
void write_choice(const struct table *table, uint8_t *list, size_t index)
{
    uint32_t choice = pack_choice(table);
    write_number(list + CHOICE_BYTES * index, choice >> 16);
    write_number(list + CHOICE_BYTES * index + 2, choice);
}

/* The product of the priorities. */
size_t count_choices(unsigned count)
{
    size_t choices = 1;
    for (unsigned factor = 2; factor <= count; factor++) {
        choices *= factor;
    }
    return choices;
}
