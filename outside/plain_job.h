/*
 * What the files of the plain implementation share: a job's numbers and the places in its tables, one action, and the walk
 * at one lamp, all of it to be compiled into the loops that use it.
 *
 * "01" in the comments is document 01, followed by the title of the section that is rendered; "02" is document 02, followed
 * by the request.
 */
#ifndef PLAIN_JOB_H
#define PLAIN_JOB_H

#include "nessflurry.h"

#include <stdbool.h>

enum { NONE = 255 }; /* as a result: the action is not legal; as a target: there is no branch (01, Job file) */

enum { MOST_COLUMNS = 16, MOST_STATES = 64, MOST_WORLDS = 64 }; /* of E + C (02, (c)), S and W (01, Job file) */

/* Two types, so that the compiler refuses the one where the other is due (01, The line and its tables). */
typedef struct { unsigned number; } program_state;
typedef struct { unsigned number; } world_state;

struct pair {
    program_state state;
    world_state world;
};

/* The numbers of a job, and its five parts, which stay in the file's bytes. */
struct job {
    unsigned actions, worlds, kinds, results;     /* A, W, C and R */
    unsigned ends, columns;                       /* E, and E + C */
    program_state first, final;                   /* final is S; the states before it are the S non-final ones */
    size_t action_bytes, world_bytes, row_bytes;  /* the cells of one action, those of one of its worlds, a plan row */
    const uint8_t *marks, *cells, *starts, *goal, *plan;
};

/* ---- Answers (nessflurry.h) ---- */

static inline uint64_t answered(unsigned code, unsigned state, unsigned world_or_end, uint32_t count)
{
    return (uint64_t)code << 8 | (uint64_t)state << 16 | (uint64_t)world_or_end << 24 | (uint64_t)count << 32;
}

static inline uint64_t refused(unsigned refusal)
{
    return answered(NESSFLURRY_REFUSED, 0, 0, 0) | refusal;
}

/* ---- Ranges ---- */

static inline bool within(unsigned number, unsigned least, unsigned most)
{
    return least <= number && number <= most;
}

/* ---- Places in the tables (01, Job file, parts 2, 4 and 5; 02, (c)) ---- */

/* The column at a lamp of this kind. That at the line's end is the end kind itself. */
static inline unsigned lamp_column(const struct job *job, unsigned kind)
{
    return job->ends - 1 + kind;
}

/* 2·((a·W + w)·(E+C) + c), multiplied out. */
static inline const uint8_t *cell_of(const struct job *job, unsigned action, world_state world, unsigned column)
{
    return job->cells + action * job->action_bytes + world.number * job->world_bytes + 2 * column;
}

static inline bool goal_holds(const struct job *job, world_state world, unsigned column)
{
    return job->goal[world.number * job->columns + column] == 1;
}

/* The plan's row of a non-final state: the action, and after it the targets by result. */
static inline const uint8_t *row_of(const struct job *job, program_state state)
{
    return job->plan + state.number * job->row_bytes;
}

/* ---- The reader (01, Job file; Who can cause which number, 1 to 11) ---- */

/* The job of a file, or the number of its refusal. */
unsigned read_job(const uint8_t *file, size_t file_size, struct job *job);

/* ---- One action, and the walk at one lamp or at the line's end (01, One run) ---- */

/* What an action comes to: failure 1 or 2; or a step to a pair, which moves on and arrives, or STAYS. */
enum { STAYS = 254 }; /* none of the codes of nessflurry.h */
struct outcome {
    unsigned code;
    struct pair pair;
};

/* The action's cell, the targets of its plan row, and whether it moves on. */
static inline struct outcome outcome_of(const uint8_t *cell, const uint8_t *targets, bool moves_on)
{
    const size_t result = cell[1];
    if (result == NONE)
        return (struct outcome){.code = NESSFLURRY_NOT_LEGAL};
    const unsigned target = targets[result];
    if (target == NONE)
        return (struct outcome){.code = NESSFLURRY_NO_BRANCH};
    return (struct outcome){moves_on ? NESSFLURRY_ARRIVED : STAYS, {{target}, {cell[0]}}};
}

static inline struct outcome act(const struct job *job, struct pair at, unsigned column)
{
    const uint8_t *const row = row_of(job, at.state);
    return outcome_of(cell_of(job, row[0], at.world, column), row + 1, job->marks[row[0]] == 1);
}

/* How a run ends in the final state. */
static inline unsigned judged(const struct job *job, world_state world, unsigned column)
{
    return goal_holds(job, world, column) ? NESSFLURRY_GOAL : NESSFLURRY_GOAL_FALSE;
}

/* The end of a walk: its code, the steps counted in this column and, if it moved on, the pair with which it arrived. */
struct walked {
    unsigned code, steps;
    struct pair arrived;
};

/*
 * The loop of 01, One run, until the run ends or the lamp is passed. The tests are in the order of 01, which puts that for
 * failure 3 after that for the final state.
 */
static inline struct walked walk(const struct job *job, struct pair at, unsigned column)
{
    const unsigned most_steps = job->final.number * job->worlds;
    for (unsigned steps = 0;; steps++) {
        if (at.state.number == job->final.number)
            return (struct walked){.code = judged(job, at.world, column), .steps = steps};
        if (steps == most_steps)
            return (struct walked){.code = NESSFLURRY_CIRCLES, .steps = steps};
        const struct outcome next = act(job, at, column);
        if (next.code == NESSFLURRY_ARRIVED)
            return (struct walked){NESSFLURRY_ARRIVED, steps + 1, next.pair};
        if (next.code != STAYS)
            return (struct walked){.code = next.code, .steps = steps};
        at = next.pair;
    }
}

#endif
