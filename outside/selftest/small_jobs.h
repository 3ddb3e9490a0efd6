/* Small random jobs, for the search over all lines. */
#ifndef SMALL_JOBS_H
#define SMALL_JOBS_H

#include "job_files/job_files.h"

/*
 * A random job that is not refused: S and W at most 3, or S 2 and W 4, with two kinds; S at most 4 and W at most 6 with
 * one kind, where lines are few. Many have several end kinds, up to 15. Most are a plan that looks for the line's end, with a
 * few defects, so that accepted ones are many and failing lines not all short.
 */
void small_job(struct job *job, struct random *random);

#endif
