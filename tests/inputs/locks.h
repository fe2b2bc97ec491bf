/* Random requests for locks beside random start tables, good and damaged. */
#ifndef LOCKS_H
#define LOCKS_H

#include "../format.h"
#include "random.h"

/* Room for a start table and the resources, each with some numbers too many. */
enum { STARTS_ROOM = FQ_JOB_NUMBERS * (MOST_JOBS + 2), USES_ROOM = MOST_JOBS + 2, RESOURCES_ROOM = FQ_RESOURCES_BYTES + 2 };

/* What is done to a good request. */
enum lock_damage {
    NO_LOCK_DAMAGE,
    JOB_MOVED,
    JOB_LENGTHENED,
    JOB_WITHOUT_LENGTH,
    NO_PERIOD,
    TOO_MANY_JOBS,
    NUMBERS_MISSING,
    STRANGE_HOLDER,
    ANY_TIME,
    STRANGE_RESOURCE,
    NO_LENGTH,
    ANY_PRIORITY,
    RESOURCE_HELD,
    LOCK_DAMAGES
};

/* What fq_grant is given, apart from the output. */
struct asking {
    uint32_t period;
    uint8_t count;
    size_t starts_len;
    uint32_t starts[STARTS_ROOM];
    size_t uses_len;
    uint8_t uses[USES_ROOM];
    size_t resources_len;
    uint8_t resources[RESOURCES_ROOM];
    uint8_t priority;
    uint64_t time;
    uint8_t resource;
    uint32_t length;
};

/* A request at a time when no started job runs, with some damage done to it. */
struct asking random_asking(struct generator *generator, enum lock_damage damage);

#endif
