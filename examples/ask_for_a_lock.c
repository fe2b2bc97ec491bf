/*
 * Links the library and asks for locks as firmware would: a board whose sampling jobs start at set times, and two sporadic tasks
 * that share resources with them. Each request is asked before the resource is taken; what is granted is noted as its holder, and
 * given back.
 * From the repository's root, on x86-64:
 *
 *     (cd crates/fidhaqooban && rt lib)
 *     gcc -std=c11 -Iinclude -o example examples/ask_for_a_lock.c crates/fidhaqooban/out/libfidhaqooban.a && ./example
 */
#include <fidhaqooban.h>

#include <inttypes.h>
#include <stdbool.h>
#include <stdio.h>

/* The resources of the board, and its two sporadic tasks by priority. */
enum { CONVERTER, NOTE_STORE };
enum { LOG_TASK = 1, RADIO_TASK = 2 };

/* The control period and its jobs; where the holders begin, after a byte of users for each resource. */
enum { PERIOD = 40, JOBS = 2, HOLDERS = FQ_RESOURCES_BYTES / 2 };

/* Request 9's table: offset and length of each job. */
static const uint32_t STARTS[JOBS * FQ_JOB_NUMBERS] = {
    5, 6,  /* sample the pressure */
    20, 3, /* sample the voltage, over the converter */
};

/* The resources that each job uses. */
static const uint8_t USES[JOBS] = {0, 1 << CONVERTER};

/* Both tasks use both resources; nobody holds one yet. */
static uint8_t resources[FQ_RESOURCES_BYTES] = {
    [CONVERTER] = 1 << (LOG_TASK - 1) | 1 << (RADIO_TASK - 1),
    [NOTE_STORE] = 1 << (LOG_TASK - 1) | 1 << (RADIO_TASK - 1),
};

/* Asks for a resource and takes it where it is granted; prints what was answered. */
static bool take(uint8_t priority, uint64_t time, uint8_t resource, uint32_t length)
{
    int64_t margin;
    int64_t answer = fq_grant(PERIOD, JOBS, STARTS, JOBS * FQ_JOB_NUMBERS, USES, JOBS, resources, sizeof resources, priority,
                              time, resource, length, &margin, 1);
    printf("at %" PRIu64 ", task %u asks for resource %u for %" PRIu32 " ticks: ", time, (unsigned)priority, (unsigned)resource, length);
    if (answer < 0) {
        printf("refused by rule %" PRId64 "\n", -answer);
        return false;
    }
    printf("%s, margin %" PRId64 "\n", answer == 1 ? "granted" : "not granted", margin);
    if (answer == 1) {
        resources[HOLDERS + resource] = priority;
    }
    return answer == 1;
}

/* Gives a resource back. */
static void give_back(uint8_t resource)
{
    resources[HOLDERS + resource] = 0;
}

/* Asks for locks one after the other, and gives back what was taken. */
int main(void)
{
    /* 17 ticks lie before the start at 20, six of them taken by the job at 5: 11 are free. */
    take(LOG_TASK, 3, CONVERTER, 12);
    if (take(LOG_TASK, 3, CONVERTER, 11)) {
        /* While the log task holds it, nobody else gets anything: a critical resource's ceiling is above all tasks. */
        take(RADIO_TASK, 4, NOTE_STORE, 1);
        take(RADIO_TASK, 4, CONVERTER, 1);
        give_back(CONVERTER);
    }

    /* While a started job runs no lock is given, and from its end on one is. */
    take(RADIO_TASK, 22, CONVERTER, 31);
    if (take(RADIO_TASK, 23, CONVERTER, 31)) {
        give_back(CONVERTER);
    }

    /* The note store is used by no started job. Held by the log task, it does not keep the radio task from the converter unless the radio task is a user too. */
    if (take(LOG_TASK, 103, NOTE_STORE, 500)) {
        take(RADIO_TASK, 104, CONVERTER, 5);
        resources[NOTE_STORE] = 1 << (LOG_TASK - 1);
        take(RADIO_TASK, 104, CONVERTER, 5);
    }
    return 0;
}
