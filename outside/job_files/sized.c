/*
 * Jobs by what a check or a replay of them costs, in several sizes.
 */
#include "families.h"

#include "rivals.h"

static const struct job_numbers numbers_of[SIZES] = {
    [SMALL] = {4, 6, 3, 4, 8, .last_end = 0},
    [MIDDLE] = {8, 24, 7, 8, 24, .last_end = 0},
    [FULL] = {MOST_ACTIONS, MOST_WORLDS, MOST_KINDS, MOST_RESULTS, MOST_STATES, .last_end = 0},
    [FULL_8_ENDS] = {MOST_ACTIONS, MOST_WORLDS, MOST_COLUMNS - 8, MOST_RESULTS, MOST_STATES, .last_end = 7},
    [FULL_15_ENDS] = {MOST_ACTIONS, MOST_WORLDS, MOST_COLUMNS - 15, MOST_RESULTS, MOST_STATES, .last_end = 14},
};

void largest_numbers(struct job *job) { set_numbers(job, numbers_of[FULL]); }

const char *const size_names[SIZES] = {"small", "middle", "max", "ends_8", "ends_15"};
const char *const sized_job_names[SIZED_JOBS] = {
    "accepted", "long_failure", "walk", "work", "at_once", "first_lamp", "circle", "random", "random_failure",
    "rivals", "untold_staying", "untold_moving",
};

/* From seeds with which many pairs are reached, and the failure is not met at once. */
static void random_tables(struct job *job, enum size size)
{
    const uint64_t seeds[SIZES] = {11, 5, 7, 7, 34};
    struct random random = {seeds[size]};
    right_job(job, &random);
    job->starts[0] = 1;
}

static void make_tables(struct job *job, enum sized_job which, enum size size)
{
    const uint8_t movers = job->states / job->results; /* enough for every other state to be the target of one that moves on */
    const uint8_t first_upper = job->kinds < 3 ? job->kinds : job->kinds / 2 + 2; /* the highest kind turns in any case */
    const uint32_t none_turn = 0, all_turn = ~none_turn, upper_turn = all_turn << first_upper;
    switch (which) {
    case JOB_LONG_FAILURE: counting_job(job, job->states); break;
    case JOB_CIRCLE:
    case JOB_WALK: turning_job(job, 1, all_turn); break;
    case JOB_WORK: turning_job(job, movers, upper_turn); break;
    case JOB_RANDOM:
    case JOB_RANDOM_FAILURE: random_tables(job, size); break;
    case JOB_RIVALS: rivals_in_step(job); break;
    case JOB_UNTOLD_STAYING:
    case JOB_UNTOLD_MOVING: untold_job(job, which == JOB_UNTOLD_MOVING); break;
    default: turning_job(job, movers, none_turn); break;
    }
}

/* The change that makes a right plan fail. */
static void put_failure(struct job *job, enum sized_job which)
{
    const uint8_t last_digit = job->states - 2;
    switch (which) {
    case JOB_AT_ONCE: job->first = job->states - 1; break; /* it moves on, which is not legal where no lamp is */
    case JOB_FIRST_LAMP: job->cells[job->action[job->first]][0][lamp_column(job, 1)] = (struct cell){0, NONE}; break;
    case JOB_CIRCLE: job->target[last_digit][1] = 0; break; /* the counter begins anew, and no lamp is passed */
    case JOB_RANDOM_FAILURE: job->goal[job->worlds - 1][job->last_end] = 0; break;
    default: break;
    }
}

void sized_job(struct job *job, enum sized_job which, enum size size)
{
    memset(job->gap, 0, sizeof job->gap);
    set_numbers(job, numbers_of[size]);
    make_tables(job, which, size);
    put_failure(job, which);
}

/* 46 pairs are reached, and from each of them a walk at a lamp of any of 8 kinds has some 1,630 steps. */
void steps_job(struct job *job)
{
    memset(job->gap, 0, sizeof job->gap);
    largest_numbers(job);
    job->worlds = 38;
    job->states = 45;
    job->kinds = 8;
    turning_job(job, 1, UINT32_MAX);
}
