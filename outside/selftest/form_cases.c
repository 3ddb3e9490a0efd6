/*
 * The two forms of the checks against each other, on jobs for which the lines are too many to be tried one by one: whatever
 * is checked is checked in both forms. The check up to a number of lamps also stands against the full one.
 */
#include "cases.h"
#include "job_files/check_answers.h"
#include "job_files/families.h"
#include "job_files/rivals.h"

enum { RANDOM_JOBS = 4000, SEED = 20051 };

/* The full check, and the one up to one lamp fewer than its failing line has, up to as many, and up to one and two more. */
static uint64_t check_both(void)
{
    static uint8_t line[NESSFLURRY_LINE_SIZE];
    const uint64_t full = check();
    const uint32_t lamps = lamps_written(full);
    memcpy(line, lent.line, lamps);
    for (uint16_t longest = (uint16_t)(lamps > 0 ? lamps - 1 : 0); longest <= lamps + 2; longest++) {
        const uint64_t answer = check_up_to(longest);
        expect("a check up to a number of lamps", answer, due_up_to(longest, full));
        expect("its failing line", memcmp(lent.line, line, lamps_written(answer)) == 0, true);
    }
    return full;
}

static uint64_t check_sized(enum sized_job which, enum size size)
{
    sized_job(&job, which, size);
    write_job();
    return check_both();
}

/* Where the answer can be seen from the job, it is demanded too. */
static void sized_jobs(enum size size)
{
    expect("a failure on the empty line", check_sized(JOB_AT_ONCE, size), failing(NESSFLURRY_NOT_LEGAL, 0, 0, 0));
    expect("a failure at the first lamp", check_sized(JOB_FIRST_LAMP, size), failing(NESSFLURRY_NOT_LEGAL, 0, 1, 0));
    expect("a circle at the first lamp", check_sized(JOB_CIRCLE, size), failing(NESSFLURRY_CIRCLES, 0, 1, 0));
    expect("a circle at the line's end", check_sized(JOB_UNTOLD_STAYING, size), failing(NESSFLURRY_CIRCLES, 0, 0, 0));
    expect("moving on at the line's end", check_sized(JOB_UNTOLD_MOVING, size), failing(NESSFLURRY_NOT_LEGAL, 0, 0, 0));
    const uint64_t random_failure = check_sized(JOB_RANDOM_FAILURE, size);
    expect("a failure over random tables", nessflurry_code_of(random_failure), NESSFLURRY_GOAL_FALSE);
    expect("its end kind", nessflurry_end_of(random_failure), job.last_end);
    const uint64_t rivals = check_sized(JOB_RIVALS, size);
    expect("the highest of many starts", nessflurry_start_of(rivals), job.worlds - 2);
    expect("its lamps", nessflurry_lamps_of(rivals), RIVAL_LAMPS);
    expect("its end kind", nessflurry_end_of(rivals), job.last_end);
    expect("a long failing line", nessflurry_code_of(check_sized(JOB_LONG_FAILURE, size)), NESSFLURRY_GOAL_FALSE);
    const enum sized_job accepted[] = {JOB_ACCEPTED, JOB_WALK, JOB_WORK, JOB_RANDOM};
    for (size_t i = 0; i < sizeof accepted / sizeof *accepted; i++)
        expect("an accepted job", nessflurry_code_of(check_sized(accepted[i], size)), NESSFLURRY_ACCEPTED);
}

/* Jobs of all families, some of which circle. */
static void random_jobs(void)
{
    struct random random = {SEED};
    unsigned circles = 0;
    for (unsigned count = 0; count < RANDOM_JOBS; count++) {
        random_job(&job, &random);
        write_job();
        circles += nessflurry_code_of(check_both()) == NESSFLURRY_CIRCLES;
    }
    expect("random jobs that circle", circles >= RANDOM_JOBS / 100, true);
}

void form_cases(void)
{
    for (enum size size = SMALL; size < SIZES; size++)
        sized_jobs(size);
    random_jobs();
}
