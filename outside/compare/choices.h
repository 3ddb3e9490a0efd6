/*
 * What calls are handed: mostly what a job has, and sometimes not.
 */
#ifndef OUTSIDE_CHOICES_H
#define OUTSIDE_CHOICES_H

#include "calls.h"
#include "job_files/logs.h"

/* A number that is mostly below the count, and sometimes not. */
uint8_t about(struct random *random, uint32_t count);

/* Any start, mostly a marked one. */
uint8_t any_start(const struct job *job, struct random *random);

/* A line as anyone might hand it in: sometimes with a kind that no lamp has, sometimes too long. Answers its lamps. */
size_t choose_line(const struct job *job, struct random *random, uint8_t line[NESSFLURRY_MAX_LAMPS + 1]);

/* An end kind as anyone might hand it in: sometimes one that the job does not have. */
uint8_t any_end(const struct job *job, struct random *random);

/* A log as anyone might hand it in: sometimes with an action or a result that the job does not have, odd or too long. */
void choose_log(const struct job *job, struct random *random, struct log *log);

/* One byte of a log that is not empty becomes an action or a result that the job does not have. */
void spoil_log(const struct job *job, struct random *random, struct log *log);

/* Sizes for a check: as large as the job needs them, or larger; and one that is smaller than needed. */
struct sizes enough_or_more(const struct job *job, struct random *random);
size_t too_few(size_t needed, struct random *random);

#endif
