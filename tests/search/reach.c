/* The search through all states, with the plain replay's machine for each tick. */
#include "reach.h"

#include "../plain/machine.h"

#include <stdio.h>
#include <stdlib.h>
#include <string.h>

/* The bits of a number of a state; the most states, and the buckets that they are found by, twice as many. */
enum { NUMBER_BITS = 6, MOST_STATES = 1 << 21, BUCKET_BITS = 22, BUCKETS = 1 << BUCKET_BITS };

/* The machine between two ticks: the ticks since each task's last release, at most its period, and since the last fault, at most the interval; and the jobs. */
struct machine {
    uint64_t since[MOST_REACH_TASKS];
    uint64_t since_fault;
    struct job jobs[MOST_REACH_TASKS];
};

/* A state found: the machine in 64 bits, the state it comes from, the bytes of the tick between them, and its bucket. */
struct node {
    uint64_t packed;
    uint32_t from;
    uint32_t bucket;
    uint8_t bytes[LOG_TICK_BYTES];
};

/* The states found so far, in the order in which they were found; a bucket has one more than the number of a state, or 0. */
static struct node nodes[MOST_STATES];
static uint32_t buckets[BUCKETS];

/* A search and what it has found. */
struct search {
    struct table table;
    struct reached reached;
};

/* Puts a machine into 64 bits. */
static uint64_t packed_machine(const struct machine *machine, size_t count)
{
    uint64_t packed = machine->since_fault;
    for (size_t place = 0; place < count; place++) {
        packed = packed << NUMBER_BITS | machine->since[place];
        packed = packed << NUMBER_BITS | machine->jobs[place].left;
        packed = packed << 1 | machine->jobs[place].is_backup;
    }
    return packed;
}

/* Takes so many bits off the end of a number. */
static uint64_t take_off(uint64_t *packed, unsigned bits)
{
    uint64_t taken = *packed & ((1u << bits) - 1);
    *packed >>= bits;
    return taken;
}

/* The machine of 64 bits. A job is as old as its task's last release. */
static struct machine unpacked_machine(uint64_t packed, size_t count)
{
    struct machine machine;
    for (size_t place = count; place > 0; place--) {
        struct job *job = &machine.jobs[place - 1];
        job->is_backup = take_off(&packed, 1) == 1;
        job->left = take_off(&packed, NUMBER_BITS);
        machine.since[place - 1] = take_off(&packed, NUMBER_BITS);
        job->age = machine.since[place - 1];
    }
    machine.since_fault = packed;
    return machine;
}

/* The bucket of a state: the one that has it, or the empty one where it belongs. */
static uint32_t bucket_of(uint64_t packed)
{
    uint32_t bucket = (uint32_t)((packed * 0x9E3779B97F4A7C15u) >> (64 - BUCKET_BITS));
    while (buckets[bucket] != 0 && nodes[buckets[bucket] - 1].packed != packed) {
        bucket = (bucket + 1) % BUCKETS;
    }
    return bucket;
}

/* Adds a state that was not found before; where there is no room for it the search is not whole. */
static void add_state(struct search *search, uint64_t packed, uint32_t from, const uint8_t *bytes)
{
    uint32_t bucket = bucket_of(packed);
    if (buckets[bucket] != 0) {
        return;
    }
    if (search->reached.states == MOST_STATES) {
        search->reached.is_whole = false;
        return;
    }
    nodes[search->reached.states] = (struct node){packed, from, bucket, {bytes[0], bytes[1]}};
    search->reached.states++;
    buckets[bucket] = (uint32_t)search->reached.states;
}

/* Writes down the log that leads to a state and then to a missed job. */
static void keep_log(struct reached *reached, uint32_t from, const uint8_t *bytes)
{
    size_t ticks = 1;
    for (uint32_t state = from; state != 0; state = nodes[state].from) {
        ticks++;
    }
    if (LOG_TICK_BYTES * ticks > REACH_LOG_ROOM) {
        fprintf(stderr, "a log that misses has %zu ticks\n", ticks);
        exit(2);
    }
    reached->has_miss = true;
    reached->log_length = LOG_TICK_BYTES * ticks;
    for (size_t tick = ticks; tick > 0; tick--) {
        memcpy(reached->log + LOG_TICK_BYTES * (tick - 1), bytes, LOG_TICK_BYTES);
        bytes = nodes[from].bytes;
        from = nodes[from].from;
    }
}

/* One more tick since something, counted up to a limit. */
static uint64_t one_later(uint64_t since, uint64_t limit)
{
    return since < limit ? since + 1 : limit;
}

/* Whether a tick releases the task at a place. */
static bool releases(const struct table *table, const uint8_t *bytes, size_t place)
{
    return bytes[0] >> (table->records[place].priority - 1) & 1;
}

/* Whether the tick's releases and fault may come now. */
static bool may_come(const struct table *table, const struct machine *machine, const uint8_t *bytes)
{
    for (size_t place = 0; place < table->count; place++) {
        if (releases(table, bytes, place) && machine->since[place] < table->records[place].period) {
            return false;
        }
    }
    return bytes[1] == 0 || machine->since_fault >= table->interval;
}

/* Goes one tick on from a state, and keeps the state that it leads to, or the log where a job is missed. */
static void go_on(struct search *search, uint32_t from, const struct machine *machine, const uint8_t *bytes)
{
    const struct table *table = &search->table;
    struct machine next = *machine;
    if (plain_tick(table, bytes, next.jobs, search->reached.longest) > 0) {
        keep_log(&search->reached, from, bytes);
        return;
    }
    for (size_t place = 0; place < table->count; place++) {
        uint64_t since = releases(table, bytes, place) ? 0 : machine->since[place];
        next.since[place] = one_later(since, table->records[place].period);
    }
    next.since_fault = one_later(bytes[1] != 0 ? 0 : machine->since_fault, table->interval);
    add_state(search, packed_machine(&next, table->count), from, bytes);
}

/* Goes on from a state by everything that may come in, up to the first miss. */
static void look_after(struct search *search, uint32_t state)
{
    struct machine machine = unpacked_machine(nodes[state].packed, search->table.count);
    for (unsigned come = 0; come < 2u << search->table.count && !search->reached.has_miss; come++) {
        const uint8_t bytes[] = {(uint8_t)(come / 2), come % 2 == 1 ? FAULT_BIT : 0};
        if (may_come(&search->table, &machine, bytes)) {
            go_on(search, state, &machine, bytes);
        }
    }
}

/* Reads the sheet, which has to be small enough for the 64 bits of a state. */
static struct table read_small(const uint8_t *sheet, size_t len)
{
    struct table table;
    bool is_small = refused_shared(sheet, len, &table) == 0 && table.count <= MOST_REACH_TASKS && table.interval <= HIGHEST_REACH_NUMBER;
    for (size_t place = 0; is_small && place < table.count; place++) {
        is_small = table.records[place].period <= HIGHEST_REACH_NUMBER;
    }
    if (!is_small) {
        fprintf(stderr, "a sheet that is too large for the search through all states\n");
        exit(2);
    }
    return table;
}

/* At the start nothing runs, and everything may come. */
static struct machine first_machine(const struct table *table)
{
    struct machine machine = {.since_fault = table->interval};
    for (size_t place = 0; place < table->count; place++) {
        machine.since[place] = table->records[place].period;
    }
    return machine;
}

/* Goes through the states in the order in which they are found, and empties their buckets. */
struct reached reach(const uint8_t *sheet, size_t len)
{
    static const uint8_t nothing[] = {0, 0};
    struct search search = {.table = read_small(sheet, len), .reached = {.is_whole = true}};
    struct machine first = first_machine(&search.table);
    add_state(&search, packed_machine(&first, search.table.count), 0, nothing);
    for (uint32_t state = 0; state < search.reached.states && !search.reached.has_miss; state++) {
        look_after(&search, state);
    }
    for (uint32_t state = 0; state < search.reached.states; state++) {
        buckets[nodes[state].bucket] = 0;
    }
    return search.reached;
}
