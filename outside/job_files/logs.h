/*
 * Logs of a cabinet (document 02, (a)): as an execution makes them, as a plan could make them, and with slight changes.
 */
#ifndef OUTSIDE_LOGS_H
#define OUTSIDE_LOGS_H

#include "execution.h"

/* Of the longest log that can be replayed. */
enum { MOST_ENTRIES = NESSFLURRY_MAX_LOG_SIZE / 2 };

/* There is room for an entry too many, since a log may be too long. */
struct log {
    size_t size;
    uint8_t bytes[NESSFLURRY_MAX_LOG_SIZE + 2];
};

static inline size_t entries_of(const struct log *log) { return log->size / 2; }

/* Each of these puts entries at the end of a log, which has room for them. */

void add_entry(struct log *log, uint8_t action, uint8_t result);

/* The next steps of an execution, `most` at most; it is left after them. */
void add_steps(struct log *log, struct execution *at, size_t most);

/* Any action and result that the job has. */
void add_any_entry(struct log *log, const struct job *job, struct random *random);

/* As the plan makes entries from its first state on, but with any results, even without a branch; then, after its end, any. */
void add_plan_entries(struct log *log, const struct job *job, struct random *random, size_t entries);

/* One slight change, after which all actions and results are still such as the job has, and the log is not too long. */
void change_log(struct log *log, const struct job *job, struct random *random);

#endif
