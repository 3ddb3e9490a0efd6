#include "both_checks.h"

#include "job_files/check_answers.h"
#include "tally.h"

/* A full check: how it is compared, with what, and what it has answered. */
struct full {
    check_comparison *compare;
    struct sizes sizes;
    uint64_t answer;
    const uint8_t *failing;
};

/* The lamps of a failing line: no more than there is room for, even if a wrong answer says so. */
static uint32_t failing_lamps(uint64_t answer)
{
    uint32_t lamps = lamps_written(answer);
    return lamps < NESSFLURRY_LINE_SIZE ? lamps : NESSFLURRY_LINE_SIZE;
}

static void try_up_to(uint32_t longest, const struct full *full, struct random *random)
{
    static uint8_t line[NESSFLURRY_LINE_SIZE];
    uint64_t answer = full->compare(longest, full->sizes, line, random);
    demand(answer == due_up_to((uint16_t)longest, full->answer), "up to some lamps what the full check answers, or none");
    demand(memcmp(line, full->failing, failing_lamps(answer)) == 0, "up to some lamps the full check's failing line");
}

/* As many lamps as the failing line has, or none, and those next to that. */
static void try_around(const struct full *full, struct random *random)
{
    uint32_t lamps = failing_lamps(full->answer);
    try_up_to(lamps, full, random);
    try_up_to(lamps + 1, full, random);
    if (lamps > 0)
        try_up_to(lamps - 1, full, random);
}

/* None or one, the most, one bit alone, as many as a failing line may have, any, or few. */
static uint32_t choose_longest(struct random *random)
{
    switch (below(random, 8)) {
    case 0: return below(random, 2);
    case 1: return NESSFLURRY_MAX_LAMPS;
    case 2: return 1u << below(random, 16);
    case 3: return below(random, NESSFLURRY_LINE_SIZE + 1);
    case 4: return below(random, NESSFLURRY_MAX_LAMPS + 1);
    default: return below(random, 8);
    }
}

uint64_t compare_both_checks(check_comparison *compare, struct sizes sizes, uint8_t *failing, struct random *random)
{
    uint64_t answer = compare(NO_BOUND, sizes, failing, random);
    const struct full full = {compare, sizes, answer, failing};
    if (nessflurry_code_of(answer) != NESSFLURRY_REFUSED)
        try_around(&full, random);
    try_up_to(choose_longest(random), &full, random);
    return answer;
}
