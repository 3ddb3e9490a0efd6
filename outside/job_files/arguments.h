/*
 * What the operations may be handed with a job's file.
 */
#ifndef OUTSIDE_ARGUMENTS_H
#define OUTSIDE_ARGUMENTS_H

#include "job_files.h"

/* A start that the job marks. */
uint8_t marked_start(const struct job *job, struct random *random);

/* An end kind that the job has. Where there is one alone, nothing is drawn (families.h, one_end_job). */
uint8_t choose_end(const struct job *job, struct random *random);

/* Lamp kinds that the job has: any mixture, or the same kind all along. */
void choose_kinds(const struct job *job, struct random *random, uint8_t *line, size_t lamps);

/* Sizes of the buffers that a check is lent, in elements; and those that the job needs. */
struct sizes {
    size_t line, list, words;
};
struct sizes enough(const struct job *job);

#endif
