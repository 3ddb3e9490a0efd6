/*
 * The sum by which the product's check counts the pairs that are reached (document 02, (d)).
 *
 * It comes in a library of its own, for the tests and the benchmark alone: within a check it meets only words that the search
 * has left, while here it is called with any. It is not in nessflurry.h, because it is no operation for users: nothing is said
 * of the words after a check, so that a caller has nothing to sum.
 */
#ifndef OUTSIDE_PAIR_SUM_H
#define OUTSIDE_PAIR_SUM_H

#include <stddef.h>
#include <stdint.h>

/*
 * The number of ones among the first `bits` bits of the words: bit i is bit i % 64 of word i / 64, and bit 0 of a word is its
 * lowest. What lies behind these bits adds nothing, and neither do bits that the words do not have. `words` is not NULL, even
 * where words_size is 0, and is not written.
 */
size_t pair_sum(const uint64_t *words, size_t words_size, size_t bits);

#endif
