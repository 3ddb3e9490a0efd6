/*
 * A small fast generator of pseudo-random numbers (splitmix64). Its whole state is one number, so that whatever was made from a
 * seed can be made again from it. That asks for one draw at a time: the compiler chooses the order of two in one expression.
 */
#ifndef OUTSIDE_RANDOM_H
#define OUTSIDE_RANDOM_H

#include <stdbool.h>
#include <stddef.h>
#include <stdint.h>
#include <string.h>

struct random {
    uint64_t state;
};

static inline uint64_t random_word(struct random *random)
{
    uint64_t word = (random->state += 0x9E3779B97F4A7C15u);
    word = (word ^ (word >> 30)) * 0xBF58476D1CE4E5B9u;
    word = (word ^ (word >> 27)) * 0x94D049BB133111EBu;
    return word ^ (word >> 31);
}

/* A number below n, which is not 0. */
static inline uint32_t below(struct random *random, uint32_t n) { return (uint32_t)(((random_word(random) >> 32) * n) >> 32); }

/* Another number below n, which is not 1, than this one. */
static inline uint32_t another_below(struct random *random, uint32_t n, uint32_t number)
{
    return (number + 1 + below(random, n - 1)) % n;
}

static inline bool one_in(struct random *random, uint32_t n) { return below(random, n) == 0; }

/* A number from the least to the most: one of the least four often, and the most sometimes. */
static inline uint8_t mostly_small(struct random *random, uint8_t least, uint8_t most)
{
    uint8_t small = most - least < 4 ? most : (uint8_t)(least + 3);
    switch (below(random, 8)) {
    case 0: return most;
    case 1:
    case 2: return (uint8_t)(least + below(random, most - least + 1u));
    default: return (uint8_t)(least + below(random, small - least + 1u));
    }
}

static inline void random_bytes(struct random *random, void *to, size_t size)
{
    uint8_t *bytes = to;
    while (size > 0) {
        uint64_t word = random_word(random);
        size_t part = size < sizeof word ? size : sizeof word;
        memcpy(bytes, &word, part);
        bytes += part;
        size -= part;
    }
}

#endif
