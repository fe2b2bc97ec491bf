/* Random requests for locks beside random start tables, good and damaged. */
#include "locks.h"

enum { LONGEST_PERIOD = 48, MOST_PERIODS_ON = 4, BYTES = UINT8_MAX + 1 };

/* A number from 1 to a limit, small ones more often. */
static uint32_t small(struct generator *generator, uint32_t limit)
{
    return 1 + (uint32_t)random_below(generator, 1 + random_below(generator, limit));
}

/* A byte of few or of many bits. */
static uint8_t random_bits_of_a_byte(struct generator *generator)
{
    uint8_t bits = (uint8_t)random_below(generator, BYTES);
    return once_in(generator, 3) ? bits : (uint8_t)(bits & random_below(generator, BYTES));
}

/* Exchanges the jobs at random. */
static void shuffle_starts(struct generator *generator, struct asking *asking)
{
    for (unsigned index = 1; index < asking->count; index++) {
        uint32_t *one = &asking->starts[FQ_JOB_NUMBERS * index];
        uint32_t *other = &asking->starts[FQ_JOB_NUMBERS * random_below(generator, index + 1)];
        for (unsigned part = 0; part < FQ_JOB_NUMBERS; part++) {
            uint32_t kept = one[part];
            one[part] = other[part];
            other[part] = kept;
        }
    }
}

/* Lays jobs one after the other into the period, touching or with gaps, and then exchanges them. */
static void draw_starts(struct generator *generator, struct asking *asking)
{
    uint32_t at = once_in(generator, 2) ? 0 : (uint32_t)random_below(generator, asking->period);
    unsigned most = (unsigned)random_below(generator, MOST_JOBS + 1);
    while (asking->count < most && at < asking->period) {
        uint32_t *job = &asking->starts[FQ_JOB_NUMBERS * asking->count];
        job[0] = at;
        job[1] = small(generator, asking->period - at);
        asking->count++;
        at += job[1] + (once_in(generator, 3) ? 0 : (uint32_t)random_below(generator, 1 + asking->period / 4));
    }
    shuffle_starts(generator, asking);
}

/* One of the users of a resource, 0 where it has none. */
static uint8_t one_user(struct generator *generator, uint8_t users)
{
    if (users == 0) {
        return 0;
    }
    unsigned bit = (unsigned)random_below(generator, PRIORITIES);
    while (!((users >> bit) & 1)) {
        bit = (bit + 1) % PRIORITIES;
    }
    return (uint8_t)(bit + 1);
}

/* Whether a started job runs at a phase of the period. */
static bool is_inside(const struct asking *asking, uint64_t phase)
{
    for (unsigned index = 0; index < asking->count; index++) {
        const uint32_t *job = &asking->starts[FQ_JOB_NUMBERS * index];
        if (phase >= job[0] && phase < (uint64_t)job[0] + job[1]) {
            return true;
        }
    }
    return false;
}

/* Puts the time at a phase at which no job runs, if there is one, in this period, in one of the next or at the far end. */
static void draw_time(struct generator *generator, struct asking *asking)
{
    uint64_t phase = random_below(generator, asking->period);
    for (uint32_t tries = 0; tries < asking->period && is_inside(asking, phase); tries++) {
        phase = (phase + 1) % asking->period;
    }
    uint64_t last = UINT64_MAX / asking->period - 1;
    uint64_t periods = once_in(generator, 4) ? last - random_below(generator, last) : random_below(generator, MOST_PERIODS_ON);
    asking->time = periods * asking->period + phase;
}

/* A request that no rule refuses, unless the jobs fill the period or the resource has no users. */
static struct asking good_asking(struct generator *generator)
{
    struct asking asking = {.period = small(generator, LONGEST_PERIOD)};
    draw_starts(generator, &asking);
    asking.starts_len = FQ_JOB_NUMBERS * (size_t)asking.count;
    asking.uses_len = asking.count;
    random_bytes(generator, asking.uses, sizeof asking.uses);
    for (unsigned index = 0; index < asking.count; index++) {
        asking.uses[index] = random_bits_of_a_byte(generator);
    }
    asking.resource = (uint8_t)random_below(generator, RESOURCES);
    asking.resources_len = FQ_RESOURCES_BYTES;
    for (unsigned number = 0; number < RESOURCES; number++) {
        uint8_t users = random_bits_of_a_byte(generator);
        users |= (uint8_t)(number == asking.resource) << random_below(generator, PRIORITIES);
        asking.resources[number] = users;
        bool is_held = number != asking.resource && once_in(generator, 6);
        asking.resources[RESOURCES + number] = is_held ? one_user(generator, users) : 0;
    }
    asking.priority = one_user(generator, asking.resources[asking.resource]);
    draw_time(generator, &asking);
    asking.length = small(generator, asking.period + 4);
    return asking;
}

/* Gives numbers past the count, which are to be ignored. */
static void add_numbers(struct generator *generator, struct asking *asking)
{
    for (size_t at = asking->starts_len; at < STARTS_ROOM; at++) {
        asking->starts[at] = (uint32_t)random_below(generator, asking->period);
    }
    asking->starts_len += random_below(generator, STARTS_ROOM + 1 - asking->starts_len);
    asking->uses_len += random_below(generator, USES_ROOM + 1 - asking->uses_len);
    asking->resources_len += random_below(generator, RESOURCES_ROOM + 1 - asking->resources_len);
}

/* Damages the start table at one random job; other damages leave it as it is. */
static void damage_starts(struct generator *generator, struct asking *asking, enum lock_damage damage, unsigned index)
{
    uint32_t *job = &asking->starts[FQ_JOB_NUMBERS * index];
    switch (damage) {
    case JOB_MOVED:
        job[0] = (uint32_t)random_below(generator, asking->period);
        break;
    case JOB_LENGTHENED:
        job[1] += once_in(generator, 2) ? 1 : UINT32_MAX - job[1];
        break;
    case JOB_WITHOUT_LENGTH:
        job[1] = 0;
        break;
    case NO_PERIOD:
        asking->period = 0;
        break;
    case TOO_MANY_JOBS:
        asking->count = (uint8_t)(MOST_JOBS + 1 + random_below(generator, UINT8_MAX - MOST_JOBS));
        break;
    case NUMBERS_MISSING:
        asking->starts_len = random_below(generator, asking->starts_len + 1);
        asking->uses_len = random_below(generator, asking->uses_len + 1);
        asking->resources_len = random_below(generator, asking->resources_len + 1);
        break;
    default:
        break;
    }
}

/* A number for a byte, small ones more often. */
static uint8_t any_byte(struct generator *generator)
{
    return (uint8_t)random_below(generator, once_in(generator, 2) ? 10 : BYTES);
}

/* Damages the request, or the holder of one resource; other damages leave both as they are. */
static void damage_request(struct generator *generator, struct asking *asking, enum lock_damage damage, unsigned resource)
{
    switch (damage) {
    case STRANGE_HOLDER:
        asking->resources[RESOURCES + resource] = any_byte(generator);
        break;
    case ANY_TIME:
        asking->time = random_below(generator, MOST_PERIODS_ON * (uint64_t)asking->period);
        break;
    case STRANGE_RESOURCE:
        asking->resource = any_byte(generator);
        break;
    case NO_LENGTH:
        asking->length = 0;
        break;
    case ANY_PRIORITY:
        asking->priority = any_byte(generator);
        break;
    case RESOURCE_HELD:
        asking->resources[RESOURCES + asking->resource] = asking->priority;
        break;
    default:
        break;
    }
}

/* Draws the job and the resource that may be damaged, and then does the damage. */
struct asking random_asking(struct generator *generator, enum lock_damage damage)
{
    struct asking asking = good_asking(generator);
    unsigned index = asking.count == 0 ? 0 : (unsigned)random_below(generator, asking.count);
    unsigned resource = (unsigned)random_below(generator, RESOURCES);
    add_numbers(generator, &asking);
    damage_starts(generator, &asking, damage, index);
    damage_request(generator, &asking, damage, resource);
    return asking;
}
