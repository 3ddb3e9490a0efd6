/*
 * Sums of words (02, (d)), whose content is chosen apart for the bits that are counted and for what lies behind them.
 */
#include "choices.h"
#include "nessflurry.h"
#include "tally.h"
#include "trials.h"

static uint64_t words[MOST_WORDS];

/* A sum to be tried: what it is handed beside the words. */
struct sum {
    size_t words_size, bits;
};

/* ---- Contents ---- */

enum content { ZEROS, ONES, SPARSE, ANY, CONTENTS };

/* Of sparse words one in four has a one, and no other. */
static uint64_t word_of(enum content content, struct random *random)
{
    switch (content) {
    case ZEROS: return 0;
    case ONES: return UINT64_MAX;
    case SPARSE: return one_in(random, 4) ? (uint64_t)1 << below(random, 64) : 0;
    default: return random_word(random);
    }
}

static void put_everywhere(struct sum sum, enum content content, struct random *random)
{
    for (size_t i = 0; i < sum.words_size; i++)
        words[i] = word_of(content, random);
}

/* Behind the bits: the rest of the word in which they end, and all words after it. */
static void put_behind(struct sum sum, enum content content, struct random *random)
{
    uint64_t behind = UINT64_MAX << sum.bits % 64;
    for (size_t i = sum.bits / 64; i < sum.words_size; i++) {
        words[i] = (words[i] & ~behind) | (word_of(content, random) & behind);
        behind = UINT64_MAX;
    }
}

/* ---- What holds of several sums ---- */

static size_t summed(struct sum sum) { return compare_sum(words, sum.words_size, sum.bits); }

static size_t bits_counted(struct sum sum) { return sum.bits / 64 < sum.words_size ? sum.bits : 64 * sum.words_size; }

/* One of the bits that are counted becomes the other. */
static void try_other_bit(struct sum sum, size_t before, struct random *random)
{
    size_t counted = bits_counted(sum);
    if (counted == 0)
        return;
    uint32_t at = below(random, (uint32_t)counted);
    uint64_t bit = (uint64_t)1 << at % 64;
    bool added = (words[at / 64] & bit) == 0;
    words[at / 64] ^= bit;
    demand(summed(sum) == (added ? before + 1 : before - 1), "one more with a further one, and one fewer without one");
}

static void try_contents_behind(struct sum sum, enum content content, struct random *random)
{
    put_everywhere(sum, content, random);
    size_t first = summed(sum);
    for (enum content behind = ZEROS; behind < CONTENTS; behind++) {
        put_behind(sum, behind, random);
        demand(summed(sum) == first, "the same sum, whatever lies behind the bits");
    }
    try_other_bit(sum, first, random);
}

static void try_sum(size_t words_size, size_t bits, struct random *random)
{
    const struct sum sum = {words_size, bits};
    for (enum content content = ZEROS; content < CONTENTS; content++)
        try_contents_behind(sum, content, random);
}

/* ---- Numbers of bits ---- */

/* At the words' end, at the end of one of them, and next to that; a power of two, or one less, up to the most; or any. */
static size_t choose_bits(size_t words_size, struct random *random)
{
    size_t beside = below(random, 3), any = (size_t)random_word(random);
    switch (below(random, 5)) {
    case 0: return 64 * words_size + beside - 1;
    case 1: return 64 * (any % (words_size + 1)) + beside - 1;
    case 2: return SIZE_MAX >> any % 64;
    case 3: return (size_t)1 << any % 64;
    default: return any % (64 * words_size + 2);
    }
}

void try_sums(struct trial *trial)
{
    struct random *random = &trial->random;
    const size_t pairs = enough(&trial->job).list, any_words = below(random, MOST_WORDS + 1);
    for (size_t bits = pairs - 1; bits <= pairs + 1; bits++)
        try_sum(enough_or_more(&trial->job, random).words, bits, random);
    try_sum(any_words, choose_bits(any_words, random), random);
}
