/* Random logs of a box and a supplier's records, good and damaged, for the tasks of a draft. */
#ifndef LOGS_H
#define LOGS_H

#include "sheets.h"

/* The most ticks of a log, and room for its record. */
enum { LONGEST_LOG = 400, LOG_ROOM = RECORD_TICK_BYTES * LONGEST_LOG };

/* What is done to a good log. */
enum log_damage { NO_LOG_DAMAGE, BYTE_CUT, STRANGE_BITS, RELEASE_ADDED, FAULT_ADDED, LOG_BIT_FLIPPED, LOG_DAMAGES };

/* What is done to a record that shows what ran. */
enum record_damage {
    NO_RECORD_DAMAGE,
    RAN_DRAWN,
    BACKUP_BIT_FLIPPED,
    LAST_RAN_CHANGED,
    RECORD_CUT,
    REFUSED_BITS,
    RECORD_DAMAGES
};

/* The bytes of a log, or of a record. */
struct log {
    size_t length;
    uint8_t bytes[LOG_ROOM];
};

/* A log that the draft's periods and its interval allow, with some damage done to it. */
struct log random_log(struct generator *generator, const struct draft *draft, enum log_damage damage);

/* The record of a good log, which shows what the plain desk runs, with some damage done to it. */
struct log random_record(struct generator *generator, const struct draft *draft, enum record_damage damage);

#endif
