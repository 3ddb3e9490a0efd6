/* The sum of the pairs by words (document 02, (d)). */
#include "plain.h"

/*
 * The ones of a word, by adding neighbours in all of it at once. The first line leaves in each two bits the number of their
 * ones: a - a / 2 is that for the numbers 0 to 3. The second leaves it in each four bits. The third adds first and then leaves
 * it in each eight: up to 8 has room in four bits, so nothing is carried into the next. The multiplication adds the eight bytes
 * up in the highest one, and 64 has room there.
 */
static inline size_t ones_of(uint64_t word)
{
    word -= word >> 1 & UINT64_C(0x5555555555555555);
    word = (word & UINT64_C(0x3333333333333333)) + (word >> 2 & UINT64_C(0x3333333333333333));
    word = (word + (word >> 4)) & UINT64_C(0x0f0f0f0f0f0f0f0f);
    return word * UINT64_C(0x0101010101010101) >> 56;
}

/* The words that the bits fill, and of the next one the lowest bits, none if the bits end with a word. */
size_t plain_sum(const uint64_t *words, size_t words_size, size_t bits)
{
    const size_t filled = bits / 64, whole = filled < words_size ? filled : words_size;
    size_t sum = 0;
    for (size_t i = 0; i < whole; i++)
        sum += ones_of(words[i]);
    if (filled < words_size)
        sum += ones_of(words[filled] & (((uint64_t)1 << bits % 64) - 1));
    return sum;
}
