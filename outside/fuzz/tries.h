/*
 * What is tried on the job file that calls.h has been given, with the arguments of an input.
 */
#ifndef OUTSIDE_TRIES_H
#define OUTSIDE_TRIES_H

#include "compare/calls.h"
#include "input.h"

/* Each other operation once, where the reader has given this refusal of the file. */
void try_refused(const struct arguments *with, uint8_t due, struct random *random);

/* The others are for a file that is not refused. */

/* Single calls with what anyone might hand over. */
void try_calls(const struct arguments *with, const struct job *job);

/* The full check and checks up to some lamps, and what follows from a failure; answers what the full check does. */
uint64_t try_checks(const struct arguments *with, const struct job *job, struct random *random);

/* A line that the job has, from a start that it marks: its run, a cabinet that is led along it, and its log. */
void try_line(const struct arguments *with, const struct job *job, uint64_t check);

/* The run of a line with as many steps as it takes without a limit, which it ended in, and with one fewer. */
void try_limits(uint8_t start, const uint8_t *kinds, size_t lamps, uint8_t end, uint64_t ending);

static inline bool ends_in(uint64_t answer, uint8_t code) { return nessflurry_code_of(answer) == code; }

/* Whether a run of the line takes a moment at most, whatever its kinds are. */
enum { MANY_STEPS = 1 << 18 };
static inline bool is_short(const struct job *job, size_t lamps)
{
    return (uint64_t)(lamps + 1) * job->states * job->worlds <= MANY_STEPS;
}

/* As many entries, but no more than a replay reads in a moment. */
static inline size_t at_most_many(const struct job *job, size_t entries)
{
    const size_t many = ((size_t)1 << 20) / ((size_t)job->worlds * columns_of(job));
    return entries < many ? entries : many;
}

#endif
