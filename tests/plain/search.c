/* The plain desk's searches, which try all candidates in order. */
#include "search.h"

enum { MOST_CHOICES = FQ_LIST_BYTES / CHOICE_BYTES };

/* A divided by b, rounded up. */
uint64_t up(uint64_t a, uint64_t b)
{
    return (a + b - 1) / b;
}

/* The least length that is at least what is needed, or no time within the limit. */
uint64_t least_length(needed_length *needed, const struct table *table, size_t place, uint64_t limit)
{
    for (uint64_t length = 1; length <= limit; length++) {
        if (length >= needed(table, place, length)) {
            return length;
        }
    }
    return NO_TIME;
}

/* How many choices of fault priorities a table has. */
static uint32_t choices_of(const struct table *table)
{
    uint32_t choices = 1;
    for (size_t place = 0; place < table->count; place++) {
        choices *= (uint32_t)table->records[place].priority;
    }
    return choices;
}

/* Sets the fault priorities of the choice at an index; the last record's moves fastest. */
static void set_choice(struct table *table, uint32_t index)
{
    for (size_t place = table->count; place > 0; place--) {
        struct record *own = &table->records[place - 1];
        own->fault_priority = 1 + index % own->priority;
        index /= (uint32_t)own->priority;
    }
}

/* The fault priority of the record at a place in a choice of 32 bits. */
static uint64_t fault_at(uint32_t choice, size_t place)
{
    return (choice >> (28 - 4 * place)) & 15;
}

/* The choice of 32 bits that a table's fault priorities make. */
static uint32_t choice_number(const struct table *table)
{
    uint32_t number = 0;
    for (size_t place = 0; place < table->count; place++) {
        number |= (uint32_t)table->records[place].fault_priority << (28 - 4 * place);
    }
    return number;
}

/* Whether a walk may go on after a choice. */
static bool allowed_after(const struct table *table, uint32_t after)
{
    if (after == 0) {
        return true;
    }
    for (size_t place = 0; place < table->count; place++) {
        if (fault_at(after, place) < 1 || fault_at(after, place) > table->records[place].priority) {
            return false;
        }
    }
    for (size_t place = table->count; place < FQ_MOST_TASKS; place++) {
        if (fault_at(after, place) != 0) {
            return false;
        }
    }
    return true;
}

/* Tries every choice, those up to the given one included. */
int64_t search_next(struct table *table, choice_rule *meets, uint32_t after)
{
    if (!allowed_after(table, after)) {
        return -FQ_BAD_CHOICE;
    }
    for (uint32_t index = 0; index < choices_of(table); index++) {
        set_choice(table, index);
        if (choice_number(table) > after && meets(table)) {
            return choice_number(table);
        }
    }
    return 0;
}

/* Tries every choice before it looks at the room. */
int64_t search_list(struct table *table, choice_rule *meets, uint8_t *out, size_t out_len)
{
    uint32_t found[MOST_CHOICES];
    size_t choices = 0;
    for (uint32_t index = 0; index < choices_of(table); index++) {
        set_choice(table, index);
        if (meets(table)) {
            found[choices] = choice_number(table);
            choices++;
        }
    }
    if (out_len < CHOICE_BYTES * choices) {
        return -FQ_SHORT_OUTPUT;
    }
    size_t position = 0;
    for (size_t choice = 0; choice < choices; choice++) {
        put_bits(out, &position, 32, found[choice]);
    }
    return (int64_t)choices;
}
