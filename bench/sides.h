/* The sides of the measurements: the calls of the library, and those of the C that is built twice, by each of two compilers. */
#ifndef SIDES_H
#define SIDES_H

#include <stddef.h>
#include <stdint.h>

/* The calls of one side. */
struct side {
    uint8_t (*judge)(const uint8_t *, size_t);
    int64_t (*rewrite)(const uint8_t *, size_t, uint8_t *, size_t);
    int64_t (*response)(const uint8_t *, size_t, size_t);
    int64_t (*verdict)(const uint8_t *, size_t);
    int64_t (*least_interval)(const uint8_t *, size_t);
    int64_t (*next)(const uint8_t *, size_t, uint32_t);
    int64_t (*list)(const uint8_t *, size_t, uint8_t *, size_t);
    int64_t (*replay)(const uint8_t *, size_t, const uint8_t *, size_t, uint64_t *, size_t);
};

/* By the response times, or by the assured times in their place. */
enum { BY_RESPONSE, BY_ASSURED_TIME, RULES };

/* C that climbs, and C with the library's method. */
enum { CLIMBING, METHODICAL, METHODS };

/* What one compiler built. */
typedef const struct side built_sides[RULES][METHODS];

extern built_sides gcc_sides;
extern built_sides clang_sides;

#endif
