/*
 * A line that the job has: what is owed along its execution.
 */
#include "compare/tally.h"
#include "job_files/logs.h"
#include "tries.h"

static struct execution chosen_execution(const struct arguments *with, const struct job *job)
{
    static uint8_t line[NESSFLURRY_MAX_LAMPS];
    const size_t lamps = mostly_few(with->lamps, NESSFLURRY_MAX_LAMPS - 1), given = sizeof with->kinds_of_line;
    uint8_t start = with->start % job->worlds;
    while (!job->starts[start])
        start = (uint8_t)((start + 1) % job->worlds);
    for (size_t lamp = 0; lamp < lamps; lamp++)
        line[lamp] = (uint8_t)(1 + with->kinds_of_line[lamp % given] % job->kinds);
    return begun(job, start, line, lamps, with->end % ends_of(job));
}

/* An accepted plan comes to the goal. */
static void try_run(const struct execution *at, uint64_t check)
{
    if (!is_short(at->job, at->lamps))
        return;
    const uint64_t ending = compare_run(at->world, at->line, at->lamps, at->end, UINT32_MAX);
    demand(!ends_in(check, NESSFLURRY_ACCEPTED) || ends_in(ending, NESSFLURRY_GOAL), "goal, as the check has answered");
    try_limits(at->world, at->line, at->lamps, at->end, ending);
}

/* ---- A cabinet that is handed the results of the first steps ---- */

static uint16_t lamps_left(const struct execution *at) { return (uint16_t)(at->lamps - at->passed); }

static void expect_action(const struct execution *at)
{
    const uint64_t answer = compare_action(at->state, lamps_left(at));
    demand(ends_in(answer, NESSFLURRY_ACTION) && nessflurry_action_of(answer) == due_action(at),
           "the action of the execution's next step");
}

static void expect_at(const struct execution *at, uint64_t cabinet)
{
    demand(ends_in(cabinet, NESSFLURRY_DONE), "no refusal of a result that the tables give");
    demand(nessflurry_state_of(cabinet) == at->state && nessflurry_lamps_of(cabinet) == lamps_left(at),
           "the execution's program state and lamps left");
}

static void lead_cabinet(struct execution at)
{
    enum { FEW_STEPS = 16 };
    expect_at(&at, compare_begin(lamps_left(&at)));
    for (int steps = 0; steps < FEW_STEPS && goes_on(&at); steps++) {
        expect_action(&at);
        const uint64_t cabinet = compare_report(at.state, lamps_left(&at), due_result(&at));
        take_step(&at);
        expect_at(&at, cabinet);
    }
}

/* ---- The log of the first steps ---- */

static struct log log;

/* Further entries as the plan makes them from this state on, but with any results. */
static void add_other_entries(const struct arguments *with, const struct job *job, uint8_t state)
{
    enum { FEW_ENTRIES = sizeof with->entries_of_log };
    for (int entry = 0; entry < with->other_entries % FEW_ENTRIES && state < job->states; entry++) {
        const uint8_t result = with->entries_of_log[entry] % job->results, target = job->target[state][result];
        add_entry(&log, job->action[state], result);
        state = target != NONE ? target : state;
    }
}

/* A byte becomes any action or any result, and seldom one that the job does not have. */
static void spoil_log(const struct arguments *with, const struct job *job)
{
    const size_t at = with->log_spoilt_at % log.size;
    log.bytes[at] = mostly_below(with->log_spoilt_with, at % 2 == 0 ? job->actions : job->results);
}

/* The log is possible. It goes on with results that may be others, and a byte of it may be wrong. */
static void try_log(const struct arguments *with, struct execution at)
{
    const size_t most = is_rare(with->true_entries) ? with->true_entries * 16u : with->true_entries % 24u;
    log.size = 0;
    add_steps(&log, &at, at_most_many(at.job, most));
    demand(ends_in(compare_replay(log.bytes, log.size), NESSFLURRY_POSSIBLE), "possible, as the log of an execution");
    add_other_entries(with, at.job, at.state);
    compare_replay(log.bytes, log.size);
    if (log.size > 0 && with->log_spoils >= 128) {
        spoil_log(with, at.job);
        compare_replay(log.bytes, log.size);
    }
}

void try_line(const struct arguments *with, const struct job *job, uint64_t check)
{
    const struct execution at = chosen_execution(with, job);
    try_run(&at, check);
    lead_cabinet(at);
    try_log(with, at);
}
