/* The test of the plain implementation. Prints what was met, and fails if any answer differs from the expected one. */
#include "cases.h"

#include <stdio.h>

int main(void)
{
    bench_cases();
    refusal_cases();
    long_line_cases();
    form_cases();
    up_to_cases();
    replay_cases();
    end_kind_cases();
    order_cases();
    sample_cases();
    sum_cases();
    rules_cases();
    printf("bench line G, refusals, long lines, forms of the checks, checks up to some lamps, logs, end kinds, order of failing "
           "lines, samples, sums, rules: %u answers compared, %u differ\n",
           compared, differing);
    random_cases();
    rival_cases();
    log_cases();
    printf("all: %u answers compared, %u differ\n", compared, differing);
    return differing != 0;
}
