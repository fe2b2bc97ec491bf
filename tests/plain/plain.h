/*
 * The plain desk: the functions of fidhaqooban.h written a second time, from the rules alone and by
 * plain search, so that the library has something independent to be compared with.
 */
#ifndef PLAIN_H
#define PLAIN_H

#include <stddef.h>
#include <stdint.h>

/* Each function takes the arguments and gives the answer of the fq_ function of the same name. */
uint8_t plain_judge(const uint8_t *sheet, size_t len);
int64_t plain_write(uint8_t count, uint16_t interval, const uint16_t *fields, size_t fields_len,
                    uint8_t *out, size_t out_len);
int64_t plain_write_shared(uint8_t count, uint16_t interval, uint16_t round, uint16_t share, const uint16_t *fields,
                           size_t fields_len, uint8_t *out, size_t out_len);
int64_t plain_rewrite(const uint8_t *sheet, size_t len, uint8_t *out, size_t out_len);
int64_t plain_record(const uint8_t *sheet, size_t len, size_t place);
int64_t plain_response(const uint8_t *sheet, size_t len, size_t place);
int64_t plain_slack(const uint8_t *sheet, size_t len, size_t place, int32_t *out, size_t out_len);
int64_t plain_times(const uint8_t *sheet, size_t len, int32_t *out, size_t out_len);
int64_t plain_verdict(const uint8_t *sheet, size_t len);
int64_t plain_least_interval(const uint8_t *sheet, size_t len);
int64_t plain_next(const uint8_t *sheet, size_t len, uint32_t after);
int64_t plain_list(const uint8_t *sheet, size_t len, uint8_t *out, size_t out_len);
int64_t plain_assured_response(const uint8_t *sheet, size_t len, size_t place);
int64_t plain_assured_next(const uint8_t *sheet, size_t len, uint32_t after);
int64_t plain_assured_list(const uint8_t *sheet, size_t len, uint8_t *out, size_t out_len);
int64_t plain_replay(const uint8_t *sheet, size_t len, const uint8_t *log, size_t log_len, uint64_t *counts,
                     size_t counts_len);
int64_t plain_check(const uint8_t *sheet, size_t len, const uint8_t *record, size_t record_len);
int64_t plain_cores(const uint8_t *sheet, size_t len, uint8_t cores, uint8_t *out, size_t out_len);
int64_t plain_mend(const uint8_t *sheet, size_t len, uint8_t *out, size_t out_len, uint64_t *changes,
                   size_t changes_len);
int64_t plain_grant(uint32_t period, uint8_t count, const uint32_t *starts, size_t starts_len, const uint8_t *uses,
                    size_t uses_len, const uint8_t *resources, size_t resources_len, uint8_t priority, uint64_t time,
                    uint8_t resource, uint32_t length, int64_t *margin, size_t margin_len);
int64_t plain_release(const uint8_t *in_use, size_t in_use_len, const uint8_t *candidate, size_t candidate_len,
                      uint8_t protected_places);

/* Whether the sheet is assured under its own fault priorities: 1, 0, or minus the refusal. */
int64_t plain_is_assured(const uint8_t *sheet, size_t len);

/* Makes each tick of a supplier's record show what ran; a record that is refused stays as it is. */
void plain_show(const uint8_t *sheet, size_t len, uint8_t *record, size_t record_len);

/* How many jobs a log misses, or minus its refusal; of each record, by place, the most ticks that a finished job took from its release. */
int64_t plain_missed(const uint8_t *sheet, size_t len, const uint8_t *log, size_t log_len, uint64_t *longest);

/* Marks a fault in each tick of a log without faults that may have one and in which a job would finish. */
void plain_strike(const uint8_t *sheet, size_t len, uint8_t *log, size_t log_len);

#endif
