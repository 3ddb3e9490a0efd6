/*
 * The full check over several contents of its buffers. Nothing that is in them before may be taken for a pair that is reached,
 * be it among the pairs' bits or behind them (02, (d)).
 */
#include "choices.h"
#include "nessflurry.h"
#include "tally.h"
#include "trials.h"

static uint8_t failing_line[NESSFLURRY_LINE_SIZE];

/* The lines are compared whole, and are 0 behind their lamps: so no lamp count has to be believed, which may be wrong. */
static void expect_same(check_comparison *compare, struct sizes sizes, uint64_t answer, struct random *random)
{
    static uint8_t line[NESSFLURRY_LINE_SIZE];
    memset(line, 0, sizeof line);
    demand(compare(NO_BOUND, sizes, line, random) == answer, "the same answer, whatever the buffers have in them");
    demand(memcmp(line, failing_line, sizeof line) == 0, "the same failing line, whatever the buffers have in them");
}

uint64_t try_contents(struct trial *trial)
{
    struct sizes exact = enough(&trial->job), larger = enough_or_more(&trial->job, &trial->random);
    larger.words++; /* in any case a word behind those with the bits */
    memset(failing_line, 0, sizeof failing_line);
    uint64_t answer = compare_check_over_ones(NO_BOUND, exact, failing_line, &trial->random);
    expect_same(compare_check_over_ones, larger, answer, &trial->random);
    expect_same(compare_check, exact, answer, &trial->random);
    expect_same(compare_check, larger, answer, &trial->random);
    return answer;
}
