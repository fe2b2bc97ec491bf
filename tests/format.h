/*
 * The sizes and bits of docs/FORMAT.md, docs/REPLAY.md and docs/LOCKS.md that fidhaqooban.h has no name for, for the tests and the
 * measurements.
 */
#ifndef FORMAT_H
#define FORMAT_H

#include <fidhaqooban.h>

enum {
    /* The bytes of a sheet's header, of that of the second edition and of a record, and the largest number of its fields of 16 bits. */
    HEADER_BYTES = 3,
    SHARED_HEADER_BYTES = 7,
    RECORD_BYTES = 9,
    HIGHEST = 65535,
    /* The bytes of a choice in a list. */
    CHOICE_BYTES = 4,
    /* The bytes of a tick in a log and in a supplier's record, the bit of a fault in its second byte and that of a backup in its third. */
    LOG_TICK_BYTES = 2,
    RECORD_TICK_BYTES = 3,
    FAULT_BIT = 128,
    BACKUP_BIT = 128,
    /* The most jobs of a start table, the resources, and the priorities of those who ask for them. */
    MOST_JOBS = 8,
    RESOURCES = FQ_RESOURCES_BYTES / 2,
    PRIORITIES = 8
};

#endif
