/*
 * Cells from rules beside the plain namesake, which looks for the first rule that matches cell by cell. Rules that are about one
 * cell each leave nearly every cell to be looked for through all of them; of rules that are about every cell of their action the
 * first one decides.
 */
#include "measure.h"
#include "tables.h"

#include <stdio.h>

static struct greatest worst;

static void print_fill(const struct subject *subject)
{
    double best[SIDES];
    uint64_t answer = measure(call_fill, subject, SIDES, best);
    double ratio = best[NESSFLURRY] / best[PLAIN];
    printf("%-33s%14.0f%14.0f%9.3f", subject->name, best[NESSFLURRY], best[PLAIN], ratio);
    print_answer(call_fill, subject, answer);
    note(&worst, ratio, subject);
}

/* The longest part, from this many rules. */
static void print_largest(struct subject *subject, uint32_t fluents, size_t count)
{
    rules_subject(subject, fluents, count, true);
    print_fill(subject);
    if (count == 0)
        return;
    rules_subject(subject, fluents, count, false);
    print_fill(subject);
}

void print_fills(void)
{
    const size_t counts[] = {0, 16, 200, 4000};
    static struct subject subject;
    printf("\ncells from rules; the ratio is nessflurry / plain\n\n");
    printf("%-33s%14s%14s%9s\n", "rules file", "nessflurry", "plain", "ratio");
    known_rules_subject(&subject, "bench_g", RULES_OF_BENCH_G);
    print_fill(&subject);
    known_rules_subject(&subject, "street_2_fluents_7_rules", RULES_OF_STREET);
    print_fill(&subject);
    for (size_t i = 0; i < sizeof counts / sizeof *counts; i++) {
        print_largest(&subject, 1, counts[i]);
        print_largest(&subject, MOST_FLUENTS, counts[i]);
    }
    printf("worst ratio %.3f (%s)\n", worst.figure, worst.name);
}
