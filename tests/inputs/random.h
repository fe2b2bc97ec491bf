/* Random numbers and bytes from a generator of its own, which gives the same ones on every machine. */
#ifndef RANDOM_H
#define RANDOM_H

#include <stdbool.h>
#include <stddef.h>
#include <stdint.h>

/* The state of the generator (splitmix64). */
struct generator {
    uint64_t state;
};

/* The generator of one round; rounds of one seed and one kind have nothing to do with each other. */
struct generator generator_of(uint64_t seed, uint64_t kind, uint64_t round);

/* A random number from 0 up to but not including the bound. */
uint64_t random_below(struct generator *generator, uint64_t bound);

/* Fills bytes with random ones. */
void random_bytes(struct generator *generator, uint8_t *bytes, size_t length);

/* True once in so many times. */
bool once_in(struct generator *generator, unsigned times);

/* A random number in a range, its ends and the numbers beside them as often as all the others. */
uint16_t edged(struct generator *generator, uint16_t least, uint16_t most);

/* The smaller of a number and a limit. */
uint16_t at_most(uint64_t number, uint16_t limit);

#endif
