/*
 * Long walks. Program state and world state are the digits of a counter that is turned to its end at a single lamp.
 */
#include "families.h"

enum { TURN };                 /* the action of the states that are a digit; every other action moves on */
enum { STAYS, WRAPS, PASSES }; /* its results 0, 1, and 2 on; R-1 is the result at the line's end, and R-2 that at an odd end */

static bool turns_tell_odd_ends(const struct job *job)
{
    return job->last_end > 0 && job->worlds > 1 && job->results > PASSES + 1;
}

/* At an odd end the world becomes the highest, and with that it is like the others. */
static struct cell turned_at_end(const struct job *job, uint8_t world, uint8_t end)
{
    uint8_t last = job->results - 1, highest = job->worlds - 1;
    bool told = turns_tell_odd_ends(job) && end % 2 == 1 && world < highest;
    return told ? (struct cell){highest, last - 1} : (struct cell){world, last};
}

static struct cell turned(const struct job *job, uint32_t turning, uint8_t world, uint8_t kind)
{
    int passing = job->results - 1 - PASSES - turns_tell_odd_ends(job);
    if (passing > 0 && !(turning >> kind & 1))
        return (struct cell){world, (uint8_t)(PASSES + (world + kind) % passing)};
    if (world + 1 < job->worlds)
        return (struct cell){world + 1, STAYS};
    return (struct cell){0, WRAPS};
}

/* Worlds and results are spread so that eight kinds of lamp lead from 64 worlds to each of the 512 pairs of world and result. */
static struct cell passed(const struct job *job, uint8_t action, uint8_t world, uint8_t kind)
{
    uint8_t next = (uint8_t)((5 * world + kind + action) % job->worlds);
    return (struct cell){next, (uint8_t)((next + kind) % job->results)};
}

static void turning_cells(struct job *job, uint32_t turning)
{
    for (uint8_t action = 0; action < job->actions; action++)
        for (uint8_t world = 0; world < job->worlds; world++)
            for (uint8_t kind = 1; kind <= job->kinds; kind++)
                job->cells[action][world][lamp_column(job, kind)] =
                    action == TURN ? turned(job, turning, world, kind) : passed(job, action, world, kind);
    for (uint8_t world = 0; world < job->worlds; world++)
        for (uint8_t end = 0; end < ends_of(job); end++)
            job->cells[TURN][world][end] = turned_at_end(job, world, end);
}

static void digit_row(struct job *job, uint8_t state, uint8_t digits, uint8_t movers)
{
    job->action[state] = TURN;
    for (int result = PASSES; result < job->results; result++)
        job->target[state][result] = (uint8_t)(digits + (state + result) % movers);
    job->target[state][STAYS] = state;
    job->target[state][WRAPS] = state + 1; /* after the last digit comes the first state that moves on */
    if (turns_tell_odd_ends(job))
        job->target[state][job->results - 2] = state;
    job->target[state][job->results - 1] = job->states;
}

/* The targets of all movers together go round the digits and the final state. */
static void mover_row(struct job *job, uint8_t mover, uint8_t digits)
{
    uint8_t state = digits + mover;
    job->action[state] = (uint8_t)(1 + mover % (job->actions - 1));
    for (int result = 0; result < job->results; result++) {
        int turn = (mover * job->results + result) % (digits + 1);
        job->target[state][result] = turn < digits ? (uint8_t)turn : job->states;
    }
}

void turning_job(struct job *job, uint8_t movers, uint32_t turning)
{
    uint8_t digits = job->states - movers;
    clear_tables(job);
    job->first = 0;
    memset(job->starts, 1, sizeof job->starts);
    memset(job->goal, 1, sizeof job->goal);
    memset(job->marks + 1, 1, sizeof job->marks - 1);
    turning_cells(job, turning);
    for (uint8_t state = 0; state < digits; state++)
        digit_row(job, state, digits, movers);
    for (uint8_t mover = 0; mover < movers; mover++)
        mover_row(job, mover, digits);
}
