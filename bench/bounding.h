/*
 * The library's way written by hand in C, but for its jumps: the searches of starting.h, the bounds of each task found once for
 * a sheet, each choice then compared with them, and the least interval by halving. Each has the parameters and answers of the fq_ call of the same name.
 */
#ifndef BOUNDING_H
#define BOUNDING_H

#include <stddef.h>
#include <stdint.h>

int64_t bounding_response(const uint8_t *sheet, size_t len, size_t place);
int64_t bounding_assured_response(const uint8_t *sheet, size_t len, size_t place);
int64_t bounding_verdict(const uint8_t *sheet, size_t len);
int64_t bounding_least_interval(const uint8_t *sheet, size_t len);
int64_t bounding_next(const uint8_t *sheet, size_t len, uint32_t after);
int64_t bounding_list(const uint8_t *sheet, size_t len, uint8_t *out, size_t out_len);
int64_t bounding_assured_next(const uint8_t *sheet, size_t len, uint32_t after);
int64_t bounding_assured_list(const uint8_t *sheet, size_t len, uint8_t *out, size_t out_len);

#endif
