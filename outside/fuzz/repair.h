/*
 * Files that are not refused, from any bytes. A file that is not refused, and has no gaps and not very many cells, comes to
 * itself, so that a sample is a seed for these as well, and a change of one of its bytes is mostly one change of the job or of
 * the rules.
 */
#ifndef OUTSIDE_REPAIR_H
#define OUTSIDE_REPAIR_H

#include "input.h"
#include "job_files/rules_files.h"

/*
 * The bytes are read as those of a job file without gaps. Numbers that are out of their range become small ones, the offsets and
 * lengths are made anew, and what is out of range in the parts is brought into it. What is lacking at the end is random. Of a job
 * with very many cells only the first actions stay, since all calls read all cells.
 */
void repair_job(struct job *job, const struct arguments *with, const uint8_t *bytes, size_t size, struct random *random);

/* A job of any family, whose file is changed as the bytes say, three for each change, and then read in the same way. */
void change_family_job(struct job *job, const struct arguments *with, const uint8_t *bytes, size_t size, struct random *random);

/*
 * The same for a rules file and the numbers that are given with it. Counts of values that would multiply to more than 64 are
 * lowered, and W is what they multiply to; a last rule that is not whole is left out.
 */
void repair_rules(struct rules *rules, const struct arguments *with, const uint8_t *bytes, size_t size, struct random *random);

#endif
