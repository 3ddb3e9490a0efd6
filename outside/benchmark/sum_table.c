/*
 * The sum of the pairs beside its plain namesake. A check that meets no failing line makes it once, after its search; here it
 * is made by itself, and of more words than any job needs too.
 */
#include "measure.h"
#include "tables.h"

#include <stdio.h>

/* The pairs of bench line G, some more, and those of the largest job, without and with as many words behind; and many words. */
static const struct {
    size_t words_size, bits;
} sums[] = {
    {1, 15},
    {1, 64},
    {16, 1000},
    {NESSFLURRY_WORDS_SIZE, NESSFLURRY_LIST_SIZE},
    {2 * NESSFLURRY_WORDS_SIZE, NESSFLURRY_LIST_SIZE},
    {SUBJECT_WORDS, 64 * (size_t)SUBJECT_WORDS},
};

static void print_sum(size_t words_size, size_t bits)
{
    static struct subject subject;
    double best[SIDES];
    words_subject(&subject, words_size, bits);
    uint64_t answer = measure(call_sum, &subject, SIDES, best);
    printf("%-10zu%8zu%14.1f%14.1f%9.3f", bits, words_size, best[NESSFLURRY], best[PLAIN], best[NESSFLURRY] / best[PLAIN]);
    print_answer(call_sum, &subject, answer);
}

void print_sums(void)
{
    printf("\nthe sum of pairs' bits alone, over words of random content; the ratio is nessflurry / plain\n\n");
    printf("%-10s%8s%14s%14s%9s\n", "bits", "words", "nessflurry", "plain", "ratio");
    for (size_t i = 0; i < sizeof sums / sizeof *sums; i++)
        print_sum(sums[i].words_size, sums[i].bits);
}
