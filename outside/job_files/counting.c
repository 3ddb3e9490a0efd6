/*
 * Long failing lines. Program state and world state are the digits of a counter that each lamp turns by one, and only its last
 * turn leads to a failure.
 *
 * States come in groups: some that look, and one that moves on. The i-th of a group looks for kind i+1; any other kind ends
 * the plan well, so that one line alone gets further. Moving on in world W-1 leads to the next state that looks, and in other
 * worlds back to the same one, which is told from the others of its group by its kind.
 *
 * A state that a lamp is passed into cannot move on itself, since that is not legal at the line's end, and a state that moves
 * on has at most R targets. So no plan of the largest numbers has more pairs on its way than this one.
 */
#include "families.h"

enum { OTHERWISE, FOUND, ODD_END }; /* the results of looking: the last at an end of an odd kind, where that is told */

/* The world that another kind leaves, and an odd end: there the goal is true at lamps too. */
static uint8_t other_world(const struct job *job) { return job->worlds > 1; }

static bool looks_tell_odd_ends(const struct job *job)
{
    return job->last_end > 0 && job->worlds > 1 && job->results > ODD_END;
}

/* In the other world an odd end is like the others. */
static struct cell look_at_end(const struct job *job, uint8_t world, uint8_t end)
{
    bool told = looks_tell_odd_ends(job) && end % 2 == 1 && world != other_world(job);
    return told ? (struct cell){other_world(job), ODD_END} : (struct cell){world, OTHERWISE};
}

static struct cell look(const struct job *job, uint8_t sought, uint8_t world, uint8_t kind)
{
    return kind == sought ? (struct cell){world, FOUND} : (struct cell){other_world(job), OTHERWISE};
}

static struct cell pass(const struct job *job, uint8_t looking, uint8_t world, uint8_t kind)
{
    bool wraps = world + 1 == job->worlds;
    if (kind > looking)
        return (struct cell){0, 0}; /* no state of a group looks for this kind */
    return (struct cell){wraps ? 0 : (uint8_t)(world + 1), (uint8_t)(wraps ? kind : kind - 1)};
}

static void looking_cells(struct job *job, uint8_t action, uint8_t sought)
{
    for (uint8_t world = 0; world < job->worlds; world++) {
        for (uint8_t end = 0; end < ends_of(job); end++)
            job->cells[action][world][end] = look_at_end(job, world, end);
        for (uint8_t kind = 1; kind <= job->kinds; kind++)
            job->cells[action][world][lamp_column(job, kind)] = look(job, sought, world, kind);
    }
}

/* The action with the number `looking` moves on; each other one looks for the kind after its own number, or for kind 1. */
static void counting_cells(struct job *job, uint8_t looking)
{
    for (uint8_t action = 0; action < job->actions; action++)
        if (action != looking)
            looking_cells(job, action, action < looking ? action + 1 : 1);
    for (uint8_t world = 0; world < job->worlds; world++)
        for (uint8_t kind = 1; kind <= job->kinds; kind++)
            job->cells[looking][world][lamp_column(job, kind)] = pass(job, looking, world, kind);
}

static void counting_group(struct job *job, uint8_t base, uint8_t looking, uint8_t after)
{
    uint8_t mover = base + looking;
    for (uint8_t i = 0; i < looking; i++) {
        job->action[base + i] = i;
        job->target[base + i][OTHERWISE] = job->states;
        job->target[base + i][FOUND] = mover;
        if (looks_tell_odd_ends(job))
            job->target[base + i][ODD_END] = base + i;
        job->target[mover][i] = base + i;
    }
    job->action[mover] = looking;
    job->target[mover][looking] = after;
}

static uint8_t smaller(uint8_t one, uint8_t other) { return one < other ? one : other; }

void counting_job(struct job *job, uint8_t last)
{
    uint8_t looking = smaller(smaller(job->results - 1, job->kinds), smaller(job->actions - 1, job->states - 1));
    uint8_t size = looking + 1, end = job->states / size * size;
    clear_tables(job);
    job->first = 0;
    job->starts[0] = 1;
    job->marks[looking] = 1;
    counting_cells(job, looking);
    for (uint8_t base = 0; base < end; base += size)
        counting_group(job, base, looking, base + size < end ? base + size : last);
    for (int world = 0; world < job->worlds; world++)
        for (int column = 0; column < columns_of(job); column++)
            job->goal[world][column] = world > 0 || is_end(job, column) || job->worlds == 1;
}
