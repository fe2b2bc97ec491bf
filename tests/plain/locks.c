/*
 * The plain lock: request 9's paragraph sentence by sentence. When started jobs run, and how much time is free, is asked tick
 * by tick, over the ticks of one period that follow the request.
 */
#include "plain.h"

#include "../format.h"

#include <stdbool.h>

enum { ABOVE_ALL_TASKS = PRIORITIES + 1 };

/* A started job. */
struct job {
    uint64_t offset;
    uint64_t length;
    uint8_t uses;
};

/* The start table and the resources, as the numbers give them. */
struct plan {
    uint64_t period;
    size_t count;
    struct job jobs[MOST_JOBS];
    uint8_t users[RESOURCES];
    uint8_t holders[RESOURCES];
};

/* Whether a bit of a byte is set. */
static bool has_bit(uint8_t bits, unsigned bit)
{
    return (bits >> bit) & 1;
}

/* Whether the task of a priority, 1 to 8, is among the users: priority p is bit p - 1. */
static bool is_user(uint8_t users, uint8_t priority)
{
    return priority >= 1 && priority <= PRIORITIES && has_bit(users, priority - 1);
}

/* Whether some tick lies in both jobs. */
static bool overlap(const struct job *one, const struct job *other)
{
    uint64_t start = one->offset > other->offset ? one->offset : other->offset;
    uint64_t one_end = one->offset + one->length, other_end = other->offset + other->length;
    return start < one_end && start < other_end;
}

/* Whether the plan breaks a rule of start tables or of holders; jobs past the eighth are not there to be looked at. */
static bool is_bad(const struct plan *plan)
{
    if (plan->count > MOST_JOBS || plan->period == 0) {
        return true;
    }
    for (const struct job *one = plan->jobs; one < plan->jobs + plan->count; one++) {
        if (one->length == 0 || one->offset + one->length > plan->period) {
            return true;
        }
        for (const struct job *other = plan->jobs; other < one; other++) {
            if (overlap(one, other)) {
                return true;
            }
        }
    }
    for (unsigned resource = 0; resource < RESOURCES; resource++) {
        if (plan->holders[resource] != 0 && !is_user(plan->users[resource], plan->holders[resource])) {
            return true;
        }
    }
    return false;
}

/* Whether a started job runs in the tick at a phase of the period. */
static bool is_taken(const struct plan *plan, uint64_t phase)
{
    for (size_t index = 0; index < plan->count; index++) {
        const struct job *job = &plan->jobs[index];
        if (phase >= job->offset && phase < job->offset + job->length) {
            return true;
        }
    }
    return false;
}

/* Whether a started job uses the resource. */
static bool is_critical(const struct plan *plan, unsigned resource)
{
    bool used = false;
    for (size_t index = 0; index < plan->count; index++) {
        used |= has_bit(plan->jobs[index].uses, resource);
    }
    return used;
}

/* Whether a job that uses the resource starts at a phase of the period. */
static bool starts_at(const struct plan *plan, unsigned resource, uint64_t phase)
{
    for (size_t index = 0; index < plan->count; index++) {
        if (plan->jobs[index].offset == phase && has_bit(plan->jobs[index].uses, resource)) {
            return true;
        }
    }
    return false;
}

/* The ceiling of a resource: above all tasks where it is critical, else the highest priority among its users. */
static unsigned ceiling_of(const struct plan *plan, unsigned resource)
{
    if (is_critical(plan, resource)) {
        return ABOVE_ALL_TASKS;
    }
    unsigned highest = 0;
    for (unsigned priority = 1; priority <= PRIORITIES; priority++) {
        if (is_user(plan->users[resource], (uint8_t)priority)) {
            highest = priority;
        }
    }
    return highest;
}

/* Whether the priority is above every ceiling of a resource that another task holds. */
static bool is_above(const struct plan *plan, uint8_t priority)
{
    for (unsigned resource = 0; resource < RESOURCES; resource++) {
        uint8_t holder = plan->holders[resource];
        if (holder != 0 && holder != priority && priority <= ceiling_of(plan, resource)) {
            return false;
        }
    }
    return true;
}

/* The free ticks from a phase, in which no started job runs, up to the next start that uses the critical resource. */
static uint64_t free_before(const struct plan *plan, unsigned resource, uint64_t phase)
{
    uint64_t ticks = 0;
    do {
        ticks += !is_taken(plan, phase);
        phase = (phase + 1) % plan->period;
    } while (!starts_at(plan, resource, phase));
    return ticks;
}

/* The number at an index, 0 where there is none. */
static uint32_t number_at(const uint32_t *numbers, size_t len, size_t index)
{
    return index < len ? numbers[index] : 0;
}

/* The byte at an index, 0 where there is none. */
static uint8_t byte_at(const uint8_t *bytes, size_t len, size_t index)
{
    return index < len ? bytes[index] : 0;
}

/* Judges the request, then asks both conditions of it. */
int64_t plain_grant(uint32_t period, uint8_t count, const uint32_t *starts, size_t starts_len, const uint8_t *uses,
                    size_t uses_len, const uint8_t *resources, size_t resources_len, uint8_t priority, uint64_t time,
                    uint8_t resource, uint32_t length, int64_t *margin, size_t margin_len)
{
    struct plan plan = {.period = period, .count = count};
    for (size_t index = 0; index < MOST_JOBS; index++) {
        plan.jobs[index].offset = number_at(starts, starts_len, FQ_JOB_NUMBERS * index);
        plan.jobs[index].length = number_at(starts, starts_len, FQ_JOB_NUMBERS * index + 1);
        plan.jobs[index].uses = byte_at(uses, uses_len, index);
    }
    for (size_t number = 0; number < RESOURCES; number++) {
        plan.users[number] = byte_at(resources, resources_len, number);
        plan.holders[number] = byte_at(resources, resources_len, RESOURCES + number);
    }
    if (is_bad(&plan)) {
        return -FQ_BAD_STARTS;
    }
    if (is_taken(&plan, time % period)) {
        return -FQ_INSIDE_A_JOB;
    }
    if (resource >= RESOURCES || length == 0 || !is_user(plan.users[resource], priority)) {
        return -FQ_BAD_REQUEST;
    }
    if (plan.holders[resource] != 0) {
        return -FQ_HELD;
    }
    if (margin_len == 0) {
        return -FQ_SHORT_OUTPUT;
    }
    if (!is_critical(&plan, resource)) {
        margin[0] = 0;
        return is_above(&plan, priority);
    }
    margin[0] = (int64_t)free_before(&plan, resource, time % period) - (int64_t)length;
    return is_above(&plan, priority) && margin[0] >= 0;
}
