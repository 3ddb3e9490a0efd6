/*
 * The execution of source document 001 over a job's tables, step by step: it has no counter, and goes on for ever where a plan
 * circles.
 */
#ifndef OUTSIDE_EXECUTION_H
#define OUTSIDE_EXECUTION_H

#include "job_files.h"

/* An execution at some point: program state, world state and lamps passed. */
struct execution {
    const struct job *job;
    const uint8_t *line;
    size_t lamps, passed;
    uint8_t end, state, world;
};

static inline struct execution begun(const struct job *job, uint8_t start, const uint8_t *line, size_t lamps, uint8_t end)
{
    return (struct execution){job, line, lamps, 0, end, job->first, start};
}

static inline bool ended(const struct execution *at) { return at->state == at->job->states; }

static inline uint8_t column(const struct execution *at)
{
    return at->passed < at->lamps ? lamp_column(at->job, at->line[at->passed]) : at->end;
}

/* The action of an execution that has not ended. */
static inline uint8_t due_action(const struct execution *at) { return at->job->action[at->state]; }

/* The result of the action that is due, or NONE where there is none: in state S, and where the action is not legal. */
static inline uint8_t due_result(const struct execution *at)
{
    return ended(at) ? NONE : at->job->cells[due_action(at)][at->world][column(at)].result;
}

/* Whether there is a step to take: an action that is due and legal, and a branch for its result. */
static inline bool goes_on(const struct execution *at)
{
    uint8_t result = due_result(at);
    return result != NONE && at->job->target[at->state][result] != NONE;
}

/* The step, where there is one. */
static inline void take_step(struct execution *at)
{
    uint8_t action = due_action(at);
    struct cell cell = at->job->cells[action][at->world][column(at)];
    at->world = cell.next;
    at->state = at->job->target[at->state][cell.result];
    at->passed += at->job->marks[action];
}

#endif
