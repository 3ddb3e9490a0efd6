/* Random jobs: the check against all lines, and runs against their execution, their walks and a cabinet. */
#include "brute.h"
#include "cases.h"
#include "small_jobs.h"

#include <stdio.h>

enum { RANDOM_JOBS = 20000, RUNS_PER_JOB = 3, LONGEST_RUN = 10, MOST_LIMIT = 40, SEED = 20111 };

/* Checks by code and by the number of pairs or lamps, larger numbers together with the largest; failures by end; runs by code. */
enum { NUMBERS = 10 };
static unsigned checks[5][NUMBERS], failures[MOST_ENDS], runs[6];

static void count_check(uint64_t answer)
{
    const unsigned code = nessflurry_code_of(answer);
    const uint32_t number = code == NESSFLURRY_ACCEPTED ? nessflurry_pairs_of(answer) : nessflurry_lamps_of(answer);
    checks[code][number < NUMBERS ? number : NUMBERS - 1]++;
    if (code != NESSFLURRY_ACCEPTED)
        failures[nessflurry_end_of(answer)]++;
}

static uint64_t limited(uint64_t answer, uint32_t limit)
{
    return nessflurry_steps_of(answer) <= limit ? answer : ending(NESSFLURRY_STOPPED, limit);
}

/* The run as a chain of walks. */
static uint64_t run_by_walks(uint8_t start, const uint8_t *line, uint32_t lamps, uint8_t line_end)
{
    uint8_t state = job.first, world = start;
    uint32_t steps = 0;
    for (uint32_t passed = 0;; passed++) {
        const uint8_t column = passed < lamps ? lamp_column(&job, line[passed]) : line_end;
        const uint64_t end = plain_walk(file.bytes, file.size, state, world, column);
        steps += nessflurry_steps_of(end);
        if (nessflurry_code_of(end) != NESSFLURRY_ARRIVED)
            return ending(nessflurry_code_of(end), steps);
        state = nessflurry_state_of(end);
        world = nessflurry_world_of(end);
    }
}

/* A cabinet that is fed what the tables yield along the line is at the final state after the run's steps if the run is. */
static void expect_cabinet_follows(uint8_t start, const uint8_t *line, uint16_t lamps, uint8_t end, uint64_t run)
{
    uint8_t world = start;
    uint64_t now = plain_begin(file.bytes, file.size, lamps);
    for (uint32_t steps = 0; steps < nessflurry_steps_of(run); steps++) {
        const uint8_t state = nessflurry_state_of(now);
        const uint16_t left = nessflurry_lamps_of(now);
        const uint8_t action = nessflurry_action_of(plain_action(file.bytes, file.size, state, left));
        const struct cell cell = job.cells[action][world][left > 0 ? lamp_column(&job, line[lamps - left]) : end];
        now = plain_report(file.bytes, file.size, state, left, cell.result);
        expect("a report along a run", nessflurry_code_of(now), NESSFLURRY_DONE);
        world = cell.next;
    }
    const unsigned code = nessflurry_code_of(run);
    const uint64_t last = plain_action(file.bytes, file.size, nessflurry_state_of(now), nessflurry_lamps_of(now));
    expect("a cabinet after a run", nessflurry_code_of(last) == NESSFLURRY_ENDED,
           code == NESSFLURRY_GOAL || code == NESSFLURRY_GOAL_FALSE);
}

static void random_run(struct random *random)
{
    uint8_t line[LONGEST_RUN];
    bool reached[BRUTE_PAIRS];
    const uint8_t start = marked_start(&job, random);
    const uint16_t lamps = (uint16_t)below(random, LONGEST_RUN + 1);
    const uint8_t end = choose_end(&job, random);
    choose_kinds(&job, random, line, lamps);
    const uint32_t limit = below(random, MOST_LIMIT + 1);
    const uint64_t run = brute_run(start, line, lamps, end, reached);
    const uint64_t wanted = limited(run, limit);
    expect("a run against its execution", plain_run(file.bytes, file.size, start, line, lamps, end, limit), wanted);
    expect("a run against its walks", run_by_walks(start, line, lamps, end), run);
    expect_cabinet_follows(start, line, lamps, end, run);
    runs[nessflurry_code_of(wanted)]++;
}

static void print_what_was_met(void)
{
    printf("%d random jobs\n", RANDOM_JOBS);
    print_row("accepted, by pairs 0 to 9+", checks[NESSFLURRY_ACCEPTED], NUMBERS);
    print_row("failure 1, by lamps 0 to 9+", checks[NESSFLURRY_NOT_LEGAL], NUMBERS);
    print_row("failure 2, by lamps 0 to 9+", checks[NESSFLURRY_NO_BRANCH], NUMBERS);
    print_row("failure 3, by lamps 0 to 9+", checks[NESSFLURRY_CIRCLES], NUMBERS);
    print_row("failure 4, by lamps 0 to 9+", checks[NESSFLURRY_GOAL_FALSE], NUMBERS);
    print_row("failures, by end 0 to 14", failures, MOST_ENDS);
    print_row("runs: Goal, 1 to 4, Stopped", runs, 6);
}

/* Some jobs have as many end kinds as there can be, so that each can be the one with which a line fails. */
static void expect_each_end(void)
{
    char what[40];
    for (unsigned end = 0; end < MOST_ENDS; end++) {
        snprintf(what, sizeof what, "some failure with end kind %u", end);
        expect(what, failures[end] > 0, true);
    }
}

void random_cases(void)
{
    struct random random = {SEED};
    for (unsigned count = 0; count < RANDOM_JOBS; count++) {
        small_job(&job, &random);
        write_job();
        count_check(expect_as_brute());
        for (unsigned run = 0; run < RUNS_PER_JOB; run++)
            random_run(&random);
    }
    print_what_was_met();
    expect_each_end();
}
