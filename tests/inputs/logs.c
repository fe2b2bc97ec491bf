/* Random logs of a box and a supplier's records, good and damaged. */
#include "logs.h"

#include "../plain/plain.h"

#include <string.h>

enum { BYTES = UINT8_MAX + 1 };

/* True so many times in a hundred. */
static bool in_hundred(struct generator *generator, unsigned percent)
{
    return random_below(generator, 100) < percent;
}

/* The releases of a tick: each legal one with a chance; what is released has to wait for its period again. */
static uint8_t draw_releases(struct generator *generator, const struct draft *draft, uint64_t *waits, unsigned chance)
{
    unsigned bits = 0;
    for (unsigned place = 0; place < draft->tasks; place++) {
        const uint16_t *numbers = draft->numbers[place];
        if (waits[place] == 0 && in_hundred(generator, chance)) {
            bits |= 1u << (numbers[PRIORITY] - 1);
            waits[place] = numbers[PERIOD];
        }
        waits[place] -= waits[place] > 0;
    }
    return (uint8_t)bits;
}

/* Draws the ticks one after the other, with chances that make a log dense or sparse. */
static struct log good_log(struct generator *generator, const struct draft *draft)
{
    static const unsigned CHANCES[] = {100, 90, 30, 5};
    struct log log = {.length = LOG_TICK_BYTES * random_below(generator, LONGEST_LOG + 1)};
    uint64_t waits[FQ_MOST_TASKS] = {0}, gap = 0;
    unsigned releases = CHANCES[random_below(generator, 4)], faults = CHANCES[random_below(generator, 4)];
    for (size_t at = 0; at < log.length; at += LOG_TICK_BYTES) {
        log.bytes[at] = draw_releases(generator, draft, waits, releases);
        if (gap == 0 && in_hundred(generator, faults)) {
            log.bytes[at + 1] = FAULT_BIT;
            gap = draft->interval;
        }
        gap -= gap > 0;
    }
    return log;
}

/* Damages one random tick of a log, or its length; an empty log stays as it is. */
struct log random_log(struct generator *generator, const struct draft *draft, enum log_damage damage)
{
    struct log log = good_log(generator, draft);
    if (log.length == 0) {
        return log;
    }
    uint8_t *tick = log.bytes + LOG_TICK_BYTES * random_below(generator, log.length / LOG_TICK_BYTES);
    switch (damage) {
    case BYTE_CUT:
        log.length--;
        break;
    case STRANGE_BITS:
        tick[1] |= (uint8_t)(1u << random_below(generator, 7));
        break;
    case RELEASE_ADDED:
        tick[0] |= (uint8_t)(1u << random_below(generator, draft->tasks));
        break;
    case FAULT_ADDED:
        tick[1] |= FAULT_BIT;
        break;
    case LOG_BIT_FLIPPED:
        tick[0] ^= (uint8_t)(1u << random_below(generator, 8));
        break;
    default:
        break;
    }
    return log;
}

/* The ticks of a log as a record, each showing what ran. */
static struct log shown_record(const struct draft *draft, const struct log *log)
{
    struct sheet sheet = packed(draft);
    size_t ticks = log->length / LOG_TICK_BYTES;
    struct log record = {.length = RECORD_TICK_BYTES * ticks};
    for (size_t tick = 0; tick < ticks; tick++) {
        memcpy(record.bytes + RECORD_TICK_BYTES * tick, log->bytes + LOG_TICK_BYTES * tick, LOG_TICK_BYTES);
    }
    plain_show(sheet.bytes, sheet.length, record.bytes, record.length);
    return record;
}

/* Damages one random tick of a record, its last, or its length; an empty record stays as it is. */
struct log random_record(struct generator *generator, const struct draft *draft, enum record_damage damage)
{
    struct log log = good_log(generator, draft);
    struct log record = shown_record(draft, &log);
    if (record.length == 0) {
        return record;
    }
    uint8_t *tick = record.bytes + RECORD_TICK_BYTES * random_below(generator, record.length / RECORD_TICK_BYTES);
    switch (damage) {
    case RAN_DRAWN:
        tick[2] = (uint8_t)random_below(generator, BYTES);
        break;
    case BACKUP_BIT_FLIPPED:
        tick[2] ^= BACKUP_BIT;
        break;
    case LAST_RAN_CHANGED:
        record.bytes[record.length - 1] ^= (uint8_t)(1 + random_below(generator, BYTES - 1));
        break;
    case RECORD_CUT:
        record.length -= 1 + random_below(generator, 2);
        break;
    case REFUSED_BITS:
        record.bytes[2] ^= (uint8_t)random_below(generator, 2);
        if (in_hundred(generator, 50)) {
            tick[1] |= FAULT_BIT;
        } else {
            tick[random_below(generator, 2)] ^= (uint8_t)(1u << random_below(generator, 8));
        }
        break;
    default:
        break;
    }
    return record;
}
