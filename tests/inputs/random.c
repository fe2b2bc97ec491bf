/* Random numbers and bytes. */
#include "random.h"

/* The next 64 random bits. */
static uint64_t random_bits(struct generator *generator)
{
    generator->state += 0x9E3779B97F4A7C15u;
    uint64_t bits = generator->state;
    bits = (bits ^ (bits >> 30)) * 0xBF58476D1CE4E5B9u;
    bits = (bits ^ (bits >> 27)) * 0x94D049BB133111EBu;
    return bits ^ (bits >> 31);
}

/* Mixes the seed, the kind and the round, so that any round can be run again without those before it. */
struct generator generator_of(uint64_t seed, uint64_t kind, uint64_t round)
{
    struct generator generator = {seed};
    generator.state = random_bits(&generator) + kind;
    generator.state = random_bits(&generator) + round;
    generator.state = random_bits(&generator);
    return generator;
}

/* Takes the remainder of the upper bits, whose slight unevenness does no harm here. */
uint64_t random_below(struct generator *generator, uint64_t bound)
{
    return (random_bits(generator) >> 16) % bound;
}

/* Spends one draw on eight bytes, lowest first, so that the order of a machine's bytes plays no part. */
void random_bytes(struct generator *generator, uint8_t *bytes, size_t length)
{
    uint64_t bits = 0;
    for (size_t index = 0; index < length; index++) {
        if (index % 8 == 0) {
            bits = random_bits(generator);
        }
        bytes[index] = (uint8_t)(bits >> (8 * (index % 8)));
    }
}

/* Draws one of so many numbers, of which 0 is the one time. */
bool once_in(struct generator *generator, unsigned times)
{
    return random_below(generator, times) == 0;
}

/* Of eight cases four are the ends and the numbers beside them. */
uint16_t edged(struct generator *generator, uint16_t least, uint16_t most)
{
    uint16_t width = (uint16_t)(most - least);
    switch (random_below(generator, 8)) {
    case 0:
        return least;
    case 1:
        return most;
    case 2:
        return (uint16_t)(least + at_most(1, width));
    case 3:
        return (uint16_t)(most - at_most(1, width));
    default:
        return (uint16_t)(least + random_below(generator, (uint64_t)width + 1));
    }
}

/* The number itself where the limit is not below it. */
uint16_t at_most(uint64_t number, uint16_t limit)
{
    return number < limit ? (uint16_t)number : limit;
}
