/*
 * Jobs of which several starts fail. What a check answers of all starts is the failure that comes first among those of each start
 * alone, and it accepts exactly if it accepts each start alone (02, (f)). Small jobs also stand against all lines.
 */
#include "brute.h"
#include "cases.h"
#include "job_files/check_answers.h"
#include "job_files/failures.h"
#include "job_files/rivals.h"
#include "small_jobs.h"

enum { SEED = 20131 };

/* Failures that were told where another start, a higher or a lower one, fails on a line as long. */
static unsigned told_before[2][RIVALRIES];

static void check_failure(struct failure *failure)
{
    failure->answer = check();
    memcpy(failure->line, lent.line, lamps_written(failure->answer));
}

static void expect_after(const struct failure *told, const struct failure *other)
{
    const unsigned lamps = nessflurry_lamps_of(told->answer), start = nessflurry_start_of(told->answer);
    if (nessflurry_start_of(other->answer) == start) {
        expect("the failure of the named start alone", other->answer, told->answer);
        expect("the line of the named start alone", memcmp(other->line, told->line, lamps) == 0, true);
        return;
    }
    expect("the failure of another start alone comes after", comes_first(told, other) && !comes_first(other, told), true);
    if (nessflurry_lamps_of(other->answer) == lamps)
        told_before[nessflurry_start_of(other->answer) < start][rivalry_of(&job, told, other)]++;
}

/* Each start of the job at hand alone. The job is left with the last of them. */
static void try_each_start(void)
{
    static struct failure told, other;
    uint8_t starts[MOST_WORLDS];
    bool named_fails = false;
    check_failure(&told);
    const bool accepted = nessflurry_code_of(told.answer) == NESSFLURRY_ACCEPTED;
    memcpy(starts, job.starts, sizeof starts);
    for (uint8_t start = 0; start < job.worlds; start++) {
        if (starts[start] != 1)
            continue;
        memset(job.starts, 0, sizeof job.starts);
        job.starts[start] = 1;
        write_job();
        check_failure(&other);
        if (nessflurry_code_of(other.answer) == NESSFLURRY_ACCEPTED)
            continue;
        expect("no start fails alone where all are accepted", accepted, false);
        expect_after(&told, &other);
        named_fails = named_fails || start == nessflurry_start_of(told.answer);
    }
    expect("the named start fails alone", named_fails, !accepted);
}

/* ---- The jobs ---- */

typedef void maker(struct random *random);

/* Few enough lines to be tried one by one: the highest rival fails on one of at most three lamps. */
static void small_rivals(struct random *random)
{
    job.kinds = (uint8_t)(1 + below(random, 3));
    job.last_end = (uint8_t)below(random, 4);
    const uint8_t lamps = (uint8_t)below(random, 4), count = (uint8_t)(2 + below(random, 4));
    random_rivals(&job, random, lamps, count);
}

static void any_rivals(struct random *random)
{
    job.last_end = (uint8_t)below(random, MOST_ENDS);
    job.kinds = (uint8_t)(1 + below(random, MOST_KINDS - job.last_end));
    const uint8_t lamps = (uint8_t)below(random, RIVAL_LAMPS + 1), count = (uint8_t)(2 + below(random, MOST_RIVALS - 1));
    random_rivals(&job, random, lamps, count);
}

static void any_small_job(struct random *random)
{
    small_job(&job, random);
}

static void try_jobs(maker *make, struct random *random, unsigned count, bool small)
{
    for (; count > 0; count--) {
        make(random);
        write_job();
        if (small)
            expect_as_brute();
        try_each_start();
    }
}

static void expect_each_rivalry(void)
{
    for (enum rivalry by = EARLIER_LINE; by < RIVALRIES; by++) {
        expect("some failure told before that of a higher start", told_before[false][by] > 0, true);
        expect("some failure told before that of a lower start", told_before[true][by] > 0, by < BY_START);
    }
}

void rival_cases(void)
{
    struct random random = {SEED};
    memset(job.gap, 0, sizeof job.gap);
    try_jobs(small_rivals, &random, 4000, true);
    try_jobs(any_rivals, &random, 1000, false);
    try_jobs(any_small_job, &random, 6000, true);
    print_row("told before a lower start", told_before[true], RIVALRIES);
    print_row("told before a higher start", told_before[false], RIVALRIES);
    expect_each_rivalry();
}
