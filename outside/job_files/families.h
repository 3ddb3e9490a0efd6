/*
 * Families of jobs that the reader does not refuse.
 */
#ifndef OUTSIDE_FAMILIES_H
#define OUTSIDE_FAMILIES_H

#include "job_files.h"

/* A job of any numbers: small ones often, extreme ones sometimes; accepted often, and failing in every way. */
void random_job(struct job *job, struct random *random);

/*
 * The same with one end kind, and no rivals. Each is what a job from the same random numbers was before there were several (document 02, (c)):
 * nothing is drawn for its end. So answers that were given then can be asked for again (compare/old_answers.h).
 */
void one_end_job(struct job *job, struct random *random);

/*
 * In the jobs of the next two families an end of an odd kind is told from the others, if there are results enough and a second
 * world: it has a result of its own, and takes a step more, which changes the world. So where W is 1 there is none.
 */

/*
 * A job whose shortest failing line is long. Its numbers are set before: A, R and S are 2 or more. What the failure is says
 * `last`, to which only the longest way leads: S fails by the goal at a further lamp, none by the missing branch, another
 * state in its own way.
 */
void counting_job(struct job *job, uint8_t last);

/*
 * An accepted job with long walks. The states but the last `movers` are one digit of a counter and the worlds the other; lamps of
 * a kind whose bit is set in `turning` turn it to its end before they are passed, the others are passed at once.
 * Its numbers are set before: R is 3 or more, A 2 or more, movers 1 to S-1.
 */
void turning_job(struct job *job, uint8_t movers, uint32_t turning);

/*
 * An accepted job that reaches as many pairs as a plan can: all but those of the states that move on, which are as few as will
 * do. So it reaches every pair of the final state, and where S is 0 every pair there is. Its numbers are set before: A and R
 * are 2 or more, and C is R or more.
 */
void crowded_job(struct job *job);

/* The number of these pairs. */
uint32_t crowd_of(const struct job *job);

/*
 * A job whose logs tell little of worlds and columns, so that a replay has to keep nearly all of them at every entry. Its plan
 * never ends: it circles in every column or, if it moves on, comes to the end of the line, where no action is legal. Its
 * numbers are set before: R is 2 or more, S 1 or more.
 */
void untold_job(struct job *job, bool moves_on);

/*
 * A right plan over random tables, with no start marked yet. It tells end kinds apart as far as there are results for it. Its
 * numbers are set before: A, R and S are 2 or more.
 */
void right_job(struct job *job, struct random *random);

/* Every number at its largest, with one end kind. */
void largest_numbers(struct job *job);

/* Jobs by what a check or a replay of them costs, in several sizes; from FULL on they are the largest numbers. */
enum size { SMALL, MIDDLE, FULL, FULL_8_ENDS, FULL_15_ENDS, SIZES }; /* of one end kind before FULL_8_ENDS */
enum sized_job {
    JOB_ACCEPTED,       /* accepted, with many pairs, of FULL as many as a plan can reach, and short walks */
    JOB_LONG_FAILURE,   /* its shortest failing line is as long as that of a plan of this size can be */
    JOB_WALK,           /* accepted, with nearly S·W steps at each lamp */
    JOB_WORK,           /* accepted, with long walks at nearly half of the kinds, or the only one, and many pairs by the others */
    JOB_AT_ONCE,        /* fails on the empty line */
    JOB_FIRST_LAMP,     /* fails at the first lamp of the first kind */
    JOB_CIRCLE,         /* fails there too, by circling through nearly all pairs */
    JOB_RANDOM,         /* accepted, over random tables */
    JOB_RANDOM_FAILURE, /* the same with the goal false in one world, at the highest end kind */
    JOB_RIVALS,         /* many starts go along the same line, and the highest alone fails, at its end (rivals.h) */
    JOB_UNTOLD_STAYING, /* circles everywhere; a replay keeps every world and column */
    JOB_UNTOLD_MOVING,  /* fails on the empty line; a replay keeps nearly all worlds, in every column */
    SIZED_JOBS
};
extern const char *const size_names[SIZES], *const sized_job_names[SIZED_JOBS];
void sized_job(struct job *job, enum sized_job which, enum size size);

/* An accepted job for which a check that walks each time makes 600,006 steps. */
void steps_job(struct job *job);

#endif
