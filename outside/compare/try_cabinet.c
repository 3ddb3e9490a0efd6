/*
 * A cabinet along a line: it is handed the results that the tables give, with action calls and refused reports between them,
 * and has to take the states of the execution.
 */
#include "choices.h"
#include "job_files/execution.h"
#include "nessflurry.h"
#include "tally.h"
#include "trials.h"

static uint16_t lamps_left(const struct execution *at) { return (uint16_t)(at->lamps - at->passed); }

static bool is_at(const struct execution *at, uint64_t cabinet)
{
    return nessflurry_state_of(cabinet) == at->state && nessflurry_lamps_of(cabinet) == lamps_left(at);
}

/* The refusal that a report of the result meets here, or 0. */
static uint8_t report_refusal(const struct execution *at, uint8_t result)
{
    if (ended(at))
        return NESSFLURRY_REFUSED_AFTER_END;
    if (result >= at->job->results || at->job->target[at->state][result] == NONE)
        return NESSFLURRY_REFUSED_RESULT;
    return at->job->marks[due_action(at)] && lamps_left(at) == 0 ? NESSFLURRY_REFUSED_NO_LAMP : 0;
}

static void expect_action(const struct execution *at)
{
    uint64_t answer = compare_action(at->state, lamps_left(at));
    uint8_t code = ended(at) ? NESSFLURRY_ENDED : NESSFLURRY_ACTION;
    demand(nessflurry_code_of(answer) == code, "ended in state S, and not before");
    demand(ended(at) || nessflurry_action_of(answer) == due_action(at), "the action of the execution's next step");
}

static void expect_refused(const struct execution *at, uint8_t result)
{
    uint64_t answer = compare_report(at->state, lamps_left(at), result);
    demand(nessflurry_refusal_of(answer) == report_refusal(at, result), "the refusal of this report");
    demand(is_at(at, answer), "the old state, from a refused report");
}

/* Calls that leave the cabinet as it is. */
static void disturb(const struct execution *at, struct random *random)
{
    uint8_t result = about(random, at->job->results);
    if (one_in(random, 2))
        expect_action(at);
    if (report_refusal(at, result) != 0)
        expect_refused(at, result);
}

/* Goes along the line, for most_steps at most; answers whether the execution ends within them. */
static bool lead(struct execution *at, struct random *random, int most_steps)
{
    uint64_t cabinet = compare_begin((uint16_t)at->lamps);
    for (int steps = 0; steps <= most_steps; steps++) {
        demand(nessflurry_code_of(cabinet) == NESSFLURRY_DONE, "no refusal of a result that the tables give");
        demand(is_at(at, cabinet), "the execution's program state and lamps left");
        disturb(at, random);
        uint8_t result = due_result(at);
        if (result == NONE)
            return true;
        if (report_refusal(at, result) != 0) {
            expect_refused(at, result);
            return true;
        }
        cabinet = compare_report(at->state, lamps_left(at), result);
        take_step(at);
    }
    return false;
}

void lead_cabinet(struct trial *trial, bool accepted)
{
    enum { MOST_STEPS = 60 };
    static uint8_t line[100];
    const struct job *job = &trial->job;
    size_t lamps = below(&trial->random, one_in(&trial->random, 10) ? sizeof line + 1 : 10);
    uint8_t start = marked_start(job, &trial->random), end = choose_end(job, &trial->random);
    struct execution at = begun(job, start, line, lamps, end);
    choose_kinds(job, &trial->random, line, lamps);
    if (lead(&at, &trial->random, MOST_STEPS) && accepted)
        demand(ended(&at) && job->goal[at.world][column(&at)], "state S with the goal true, after an accepted plan");
}
