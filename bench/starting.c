/* The searches with the library's starts. */
#include "starting.h"

#include "burdens.h"

/* The least span that covers its burden, or 0 where it passes the deadline: none is shorter than what a span of 1 has to cover. */
static uint32_t least(const struct table *table, const struct burden *burden, uint32_t deadline)
{
    return climb(table, burden, due(table, burden, 1), deadline);
}

/* Whether there is one. */
static bool reaches(const struct table *table, const struct burden *burden, uint32_t deadline)
{
    int64_t start = due(table, burden, 1);
    if (start > deadline) {
        return false;
    }
    return due(table, burden, deadline) <= deadline || climb(table, burden, start, deadline) != 0;
}

/* The longer of the two times. */
uint32_t started_response(const struct table *table, unsigned own)
{
    const struct record *record = &table->records[own];
    struct burden burden = elsewhere_burden(table, own, largest_backup(table, own, own));
    uint32_t elsewhere = least(table, &burden, record->deadline);
    if (elsewhere == 0) {
        return 0;
    }
    burden = itself_burden(table, own, record->fault_priority, largest_backup(table, record->fault_priority, 0));
    uint32_t itself = least(table, &burden, record->deadline);
    return itself == 0 || itself > elsewhere ? itself : elsewhere;
}

/* The backup is the largest that goes before the task's own. */
uint32_t started_assured_time(const struct table *table, unsigned own)
{
    const struct record *record = &table->records[own];
    struct burden burden = assured_burden(table, own, record->fault_priority, backup_ahead(table, own));
    return least(table, &burden, record->deadline);
}

/* One of the two equations. */
bool bears(const struct table *table, unsigned own, unsigned fault, uint32_t backup)
{
    struct burden burden = fault == 0 ? elsewhere_burden(table, own, backup) : itself_burden(table, own, fault, backup);
    return reaches(table, &burden, table->records[own].deadline);
}

/* The assured equation. */
bool bears_assured(const struct table *table, unsigned own, unsigned fault, uint32_t backup)
{
    struct burden burden = assured_burden(table, own, fault, backup);
    return reaches(table, &burden, table->records[own].deadline);
}

/* Both equations. */
bool is_on_time(const struct table *table, unsigned own)
{
    unsigned fault = table->records[own].fault_priority;
    return bears(table, own, 0, largest_backup(table, own, own)) && bears(table, own, fault, largest_backup(table, fault, 0));
}

/* The lowest is late the soonest. */
bool passes_from_lowest(const struct table *table)
{
    for (unsigned own = 1; own <= table->count; own++) {
        if (!is_on_time(table, own)) {
            return false;
        }
    }
    return true;
}

/* The same by the assured equation. */
bool is_assured_from_lowest(const struct table *table)
{
    for (unsigned own = 1; own <= table->count; own++) {
        if (!bears_assured(table, own, table->records[own].fault_priority, backup_ahead(table, own))) {
            return false;
        }
    }
    return true;
}
