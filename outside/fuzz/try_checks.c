/*
 * The checks, and the run of a failing line.
 */
#include "compare/tally.h"
#include "job_files/check_answers.h"
#include "tries.h"

/* Of a check that walks; a job that may take more is checked as the largest ones are. */
enum { MANY_STEPS_OF_CHECK = 1 << 22 };

static check_comparison *chosen_comparison(const struct arguments *with, const struct job *job)
{
    const uint64_t unfinished = (uint64_t)job->states * job->worlds;
    if (is_rare(with->manner) || (unfinished + job->worlds) * unfinished * columns_of(job) > MANY_STEPS_OF_CHECK)
        return compare_check_alone;
    return with->manner % 2 == 0 ? compare_check : compare_check_over_ones;
}

static struct sizes chosen_sizes(const struct arguments *with, struct sizes needed)
{
    return (struct sizes){mostly_enough(with->line_size, needed.line), mostly_enough(with->list_size, needed.list),
                          mostly_enough(with->words_size, needed.words)};
}

/* A full check that is not refused: how it is compared, with what, what it has answered, and the line of a failure. */
struct full {
    check_comparison *compare;
    struct sizes sizes;
    uint64_t answer;
    const uint8_t *failing;
};

static void try_up_to(uint32_t longest, const struct full *full, struct random *random)
{
    static uint8_t line[NESSFLURRY_LINE_SIZE];
    const uint64_t answer = full->compare(longest, full->sizes, line, random);
    const bool as_due = answer == due_up_to((uint16_t)longest, full->answer);
    demand(as_due, "up to some lamps what the full check answers, or none");
    if (as_due)
        demand(memcmp(line, full->failing, lamps_written(answer)) == 0, "up to some lamps the full check's failing line");
}

void try_limits(uint8_t start, const uint8_t *kinds, size_t lamps, uint8_t end, uint64_t ending)
{
    const uint32_t steps = nessflurry_steps_of(ending);
    demand(compare_run(start, kinds, lamps, end, steps) == ending, "the same ending within the limit");
    if (steps == 0)
        return;
    const uint64_t stopped = compare_run(start, kinds, lamps, end, steps - 1);
    demand(ends_in(stopped, NESSFLURRY_STOPPED) && nessflurry_steps_of(stopped) == steps - 1, "stopped at the limit");
}

/* It is told up to as many lamps as it has, and not up to one fewer; and the run of its line ends in it. */
static void follow_failure(const struct job *job, const struct full *full, struct random *random)
{
    const uint8_t start = nessflurry_start_of(full->answer), end = nessflurry_end_of(full->answer);
    const uint32_t lamps = nessflurry_lamps_of(full->answer);
    try_up_to(lamps, full, random);
    if (lamps > 0)
        try_up_to(lamps - 1, full, random);
    const uint64_t ending = compare_run(start, full->failing, lamps, end, UINT32_MAX);
    demand(ends_in(ending, nessflurry_code_of(full->answer)), "the named failure, from the run of the failing line");
    if (is_short(job, lamps))
        try_limits(start, full->failing, lamps, end, ending);
}

uint64_t try_checks(const struct arguments *with, const struct job *job, struct random *random)
{
    static uint8_t failing[NESSFLURRY_LINE_SIZE];
    const struct sizes needed = enough(job), chosen = chosen_sizes(with, needed);
    const uint32_t longest = mostly_few(with->longest, NESSFLURRY_MAX_LAMPS - 1);
    struct full full = {chosen_comparison(with, job), chosen, 0, failing};
    full.answer = full.compare(NO_BOUND, chosen, failing, random);
    if (ends_in(full.answer, NESSFLURRY_REFUSED)) {
        compare_check(longest, chosen, failing, random);
        full.sizes = needed;
        full.answer = full.compare(NO_BOUND, needed, failing, random);
    }
    if (differences() > 0)
        return full.answer;
    try_up_to(longest, &full, random);
    if (!ends_in(full.answer, NESSFLURRY_ACCEPTED))
        follow_failure(job, &full, random);
    return full.answer;
}
