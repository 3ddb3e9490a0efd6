/*
 * Damage to job files: each defect that has a refusal from 1 to 11, alone and several at once.
 */
#ifndef OUTSIDE_DAMAGE_H
#define OUTSIDE_DAMAGE_H

#include "job_files.h"

/*
 * Puts one to three defects into the file of a job, and answers the lowest of their numbers, which is the refusal due, or 0
 * where the job has no room for the chosen ones.
 */
unsigned damage(struct file *file, const struct job *job, struct random *random);

/* Overwrites a few bytes, wherever they are; what the reader owes then is not known. */
void scramble(struct file *file, struct random *random);

/*
 * As many columns, of which any number are end kinds: the lengths stay right, and lamp kinds may become end kinds or the other
 * way round. What the reader owes then is not known.
 */
void shift_columns(struct file *file, const struct job *job, struct random *random);

/* The file cut or lengthened by random bytes to a size of up to NESSFLURRY_MAX_FILE_SIZE + 1. */
void resize(struct file *file, size_t size, struct random *random);

#endif
