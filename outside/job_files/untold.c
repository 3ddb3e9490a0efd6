/*
 * Logs that tell little. Every world is a start, and no entry rules out many of the worlds and columns that can be true. The
 * plan goes round its states, each with another action than the one before, so that each entry is about other cells.
 */
#include "families.h"

/* The action alone decides on the result, and no two worlds become one: every pair of world and column stays. */
static struct cell stayed(const struct job *job, uint8_t action, uint8_t world)
{
    return (struct cell){(uint8_t)((world + action) % job->worlds), action % job->results};
}

/* Each of two results rules out half of the pairs; the others lead to every world from one kind of lamp or another. */
static struct cell moved(const struct job *job, struct random *random)
{
    uint8_t next = (uint8_t)below(random, job->worlds), result = (uint8_t)below(random, 2);
    return (struct cell){next, result};
}

static void untold_plan(struct job *job)
{
    for (uint8_t state = 0; state < job->states; state++) {
        job->action[state] = state % job->actions;
        memset(job->target[state], (state + 1) % job->states, job->results);
    }
}

void untold_job(struct job *job, bool moves_on)
{
    struct random random = {0};
    clear_tables(job);
    job->first = 0;
    memset(job->starts, 1, sizeof job->starts);
    memset(job->goal, 1, sizeof job->goal);
    memset(job->marks, moves_on, sizeof job->marks);
    for (uint8_t action = 0; action < job->actions; action++)
        for (uint8_t world = 0; world < job->worlds; world++)
            for (uint8_t column = first_legal(job, action); column < columns_of(job); column++)
                job->cells[action][world][column] = moves_on ? moved(job, &random) : stayed(job, action, world);
    untold_plan(job);
}
