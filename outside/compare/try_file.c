/*
 * Single calls: every operation on any file, and walks and cabinet calls by themselves.
 */
#include "both_checks.h"
#include "choices.h"
#include "nessflurry.h"
#include "tally.h"
#include "trials.h"

static void expect_due(const struct trial *trial, uint64_t answer)
{
    demand(trial->due == 0 || nessflurry_refusal_of(answer) == trial->due, "the lowest refusal that is due for the file");
}

static void try_walk(struct trial *trial)
{
    struct random *random = &trial->random;
    uint8_t state = about(random, trial->job.states + 1u), world = about(random, trial->job.worlds);
    expect_due(trial, compare_walk(state, world, about(random, columns_of(&trial->job))));
}

/* All walks of a small job, beyond its states, worlds and columns too; some of a larger one. */
void try_walks(struct trial *trial)
{
    const struct job *job = &trial->job;
    if (job->states * job->worlds * (columns_of(job) - 1) > 16) {
        for (int more = 0; more < 6; more++)
            try_walk(trial);
        return;
    }
    for (uint8_t state = 0; state <= job->states + 1; state++)
        for (uint8_t world = 0; world <= job->worlds; world++)
            for (uint8_t column = 0; column <= columns_of(job); column++)
                compare_walk(state, world, column);
}

void try_cabinet_calls(struct trial *trial)
{
    struct random *random = &trial->random;
    uint8_t state = about(random, trial->job.states + 1u), result = about(random, trial->job.results);
    uint16_t lamps = one_in(random, 2) ? (uint16_t)below(random, 3) : (uint16_t)random_word(random);
    expect_due(trial, compare_begin(lamps));
    expect_due(trial, compare_action(state, lamps));
    uint64_t answer = compare_report(state, lamps, result);
    expect_due(trial, answer);
    if (nessflurry_code_of(answer) == NESSFLURRY_REFUSED)
        demand(nessflurry_state_of(answer) == state && nessflurry_lamps_of(answer) == lamps,
               "the old state, from a refused report");
}

static void try_any_run(struct trial *trial)
{
    static uint8_t line[NESSFLURRY_MAX_LAMPS + 1];
    size_t lamps = choose_line(&trial->job, &trial->random, line);
    uint8_t start = any_start(&trial->job, &trial->random), end = any_end(&trial->job, &trial->random);
    expect_due(trial, compare_run(start, line, lamps, end, below(&trial->random, 1000)));
}

/* The file's refusal comes before those of the buffers. */
static void try_any_checks(struct trial *trial)
{
    static uint8_t failing_line[NESSFLURRY_LINE_SIZE];
    struct sizes sizes = enough_or_more(&trial->job, &trial->random);
    if (trial->due != 0 && one_in(&trial->random, 2))
        sizes = (struct sizes){0, 0, 0};
    expect_due(trial, compare_both_checks(compare_check, sizes, failing_line, &trial->random));
}

static void try_any_replay(struct trial *trial)
{
    static struct log log;
    choose_log(&trial->job, &trial->random, &log);
    expect_due(trial, compare_replay(log.bytes, log.size));
}

void try_file(struct trial *trial)
{
    expect_due(trial, compare_read(&trial->random));
    try_walk(trial);
    try_any_run(trial);
    try_any_checks(trial);
    try_cabinet_calls(trial);
    try_any_replay(trial);
}
