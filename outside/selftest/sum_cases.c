/* The sum of the pairs (02, (d)): values known beforehand, and random words against a count bit by bit. */
#include "cases.h"

#include <stdio.h>

enum { BEHIND = 3, SINGLE_WORDS = 3, MOST_WORDS = NESSFLURRY_WORDS_SIZE + BEHIND, SEED = 20052 };

static uint64_t words[MOST_WORDS];

static void expect_sum(const char *what, size_t words_size, size_t bits, size_t wanted)
{
    char call[100];
    snprintf(call, sizeof call, "%s: %zu bits of %zu words", what, bits, words_size);
    expect(call, plain_sum(words, words_size, bits), wanted);
}

/* ---- Values known beforehand ---- */

/* All bits ones, or none of them; behind them the rest of the last word may be ones, and words of any content follow. */
static void expect_ones(size_t bits)
{
    static const uint64_t garbage[BEHIND] = {UINT64_MAX, 0x123456789ABCDEF, (uint64_t)1 << 63};
    const size_t needed = (bits + 63) / 64;
    memset(words, 0xff, sizeof words);
    expect_sum("ones", needed, bits, bits);
    expect_sum("ones, with ones behind", needed + BEHIND, bits, bits);
    memcpy(words + needed, garbage, sizeof garbage);
    expect_sum("ones, with garbage behind", needed + BEHIND, bits, bits);
    memset(words, 0, needed * sizeof *words);
    expect_sum("zeros, with garbage behind", needed + BEHIND, bits, 0);
    if (bits % 64 != 0)
        words[needed - 1] = UINT64_MAX << bits % 64;
    expect_sum("ones behind the bits only", needed + BEHIND, bits, 0);
}

static void known_sums(void)
{
    const size_t bits[] = {0, 1, 15, 63, 64, 65, 127, 128, 129, 4159, 4160};
    for (size_t i = 0; i < sizeof bits / sizeof *bits; i++)
        expect_ones(bits[i]);
}

static void more_bits_than_words(void)
{
    const size_t more[] = {129, 191, 192, 4160, SIZE_MAX - 1, SIZE_MAX};
    memset(words, 0xff, sizeof words);
    for (size_t i = 0; i < sizeof more / sizeof *more; i++) {
        expect_sum("more bits than two words have", 2, more[i], 128);
        expect_sum("bits, and no words", 0, more[i], 0);
    }
    expect_sum("no bits, and no words", 0, 0, 0);
}

/* A one at each place is counted exactly where it is one of the bits. */
static void single_ones(void)
{
    for (size_t place = 0; place < 64 * SINGLE_WORDS; place++) {
        memset(words, 0, sizeof words);
        words[place / 64] = (uint64_t)1 << place % 64;
        for (size_t bits = 0; bits <= 64 * SINGLE_WORDS + 1; bits++)
            expect_sum("a single one", SINGLE_WORDS, bits, place < bits);
    }
}

/* ---- Bit by bit ---- */

static bool bit_at(size_t place) { return words[place / 64] >> place % 64 & 1; }

/* Every number of bits up to one more than the words have; each takes in one bit more than the one before. */
static void expect_bit_by_bit(size_t words_size)
{
    const size_t all = 64 * words_size;
    size_t ones = 0;
    for (size_t bits = 0; bits < all; bits++) {
        expect_sum("the ones bit by bit", words_size, bits, ones);
        ones += bit_at(bits);
    }
    expect_sum("the ones of all words", words_size, all, ones);
    expect_sum("the ones of all words, with a bit more", words_size, all + 1, ones);
}

static void random_words(void)
{
    struct random random = {SEED};
    for (size_t words_size = 0; words_size <= NESSFLURRY_WORDS_SIZE + 1; words_size++) {
        random_bytes(&random, words, sizeof words);
        expect_bit_by_bit(words_size);
    }
}

void sum_cases(void)
{
    known_sums();
    more_bits_than_words();
    single_ones();
    random_words();
}
