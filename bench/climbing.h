/*
 * The baseline of the measurements: calls with the meaning of those in fidhaqooban.h, written by hand in C
 * and proved by nobody. Each has the parameters and answers of the fq_ call of the same name.
 */
#ifndef CLIMBING_H
#define CLIMBING_H

#include <stddef.h>
#include <stdint.h>

uint8_t climbing_judge(const uint8_t *sheet, size_t len);
int64_t climbing_rewrite(const uint8_t *sheet, size_t len, uint8_t *out, size_t out_len);
int64_t climbing_response(const uint8_t *sheet, size_t len, size_t place);
int64_t climbing_verdict(const uint8_t *sheet, size_t len);
int64_t climbing_least_interval(const uint8_t *sheet, size_t len);
int64_t climbing_next(const uint8_t *sheet, size_t len, uint32_t after);
int64_t climbing_list(const uint8_t *sheet, size_t len, uint8_t *out, size_t out_len);
int64_t climbing_assured_response(const uint8_t *sheet, size_t len, size_t place);
int64_t climbing_assured_next(const uint8_t *sheet, size_t len, uint32_t after);
int64_t climbing_assured_list(const uint8_t *sheet, size_t len, uint8_t *out, size_t out_len);
int64_t climbing_replay(const uint8_t *sheet, size_t len, const uint8_t *log, size_t log_len, uint64_t *counts,
                        size_t counts_len);

#endif
