/*
 * As many pairs as a plan can reach. A state that a lamp is passed into cannot move on itself, since that is not legal at the
 * line's end. So all states but a few look, and these few pass lamps for them. A lamp's kind chooses among the targets of the
 * state that passes it; all such targets together are the final state and each state that looks but the first, in which the
 * plan begins in every world.
 */
#include "families.h"

enum { LOOK, PASS };      /* two actions: PASS moves on */
enum { AT_END, AT_LAMP }; /* the results of LOOK */

/* How many states look, and how many pass lamps: the fewest that have, with R targets each, one for each of those that look. */
static uint8_t looking(const struct job *job) { return (uint8_t)(job->states * job->results / (job->results + 1)); }

static uint8_t passing(const struct job *job) { return job->states - looking(job); }

/* Each kind leads from all worlds to all worlds. */
static void crowded_cells(struct job *job)
{
    for (uint8_t world = 0; world < job->worlds; world++) {
        for (uint8_t column = 0; column < columns_of(job); column++)
            job->cells[LOOK][world][column] = (struct cell){world, is_end(job, column) ? AT_END : AT_LAMP};
        for (uint8_t kind = 1; kind <= job->kinds; kind++) {
            uint8_t next = (uint8_t)((world + kind) % job->worlds), result = (uint8_t)((kind - 1) % job->results);
            job->cells[PASS][world][lamp_column(job, kind)] = (struct cell){next, result};
        }
    }
}

static void looking_row(struct job *job, uint8_t state)
{
    job->action[state] = LOOK;
    job->target[state][AT_END] = job->states;
    job->target[state][AT_LAMP] = (uint8_t)(looking(job) + state % passing(job));
}

static void passing_row(struct job *job, uint8_t passer)
{
    uint8_t state = looking(job) + passer;
    job->action[state] = PASS;
    for (int result = 0; result < job->results; result++) {
        int target = 1 + passer * job->results + result;
        job->target[state][result] = target < looking(job) ? (uint8_t)target : job->states;
    }
}

void crowded_job(struct job *job)
{
    clear_tables(job);
    job->first = looking(job) > 0 ? 0 : job->states;
    job->marks[PASS] = 1;
    memset(job->starts, 1, sizeof job->starts);
    memset(job->goal, 1, sizeof job->goal);
    crowded_cells(job);
    for (uint8_t state = 0; state < looking(job); state++)
        looking_row(job, state);
    for (uint8_t passer = 0; passer < passing(job); passer++)
        passing_row(job, passer);
}

uint32_t crowd_of(const struct job *job) { return (looking(job) + 1u) * job->worlds; }
