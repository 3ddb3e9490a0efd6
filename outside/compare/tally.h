/*
 * What the outside test has seen: compared calls by operation and answer, and differences.
 */
#ifndef OUTSIDE_TALLY_H
#define OUTSIDE_TALLY_H

#include "job_files/failures.h"
#include "job_files/rules_files.h"

enum operation { READ, WALK, RUN, CHECK, CHECK_UP_TO, BEGIN, ACTION, REPORT, REPLAY, FILL, SUM, OPERATIONS };

/* Where the test is: told with the first difference, so that it can be seen again. */
enum { MOST_ARGUMENTS = 6 };
#define NO_TRIAL UINT32_MAX
struct place {
    uint32_t number; /* of the trial, or NO_TRIAL where a fuzzer has made up what is tried */
    const struct file *file;
    const struct rules *rules; /* of a fill, which is not handed the file */
    const uint64_t *words;     /* of a sum, which is not either */
    enum operation operation;
    uint64_t arguments[MOST_ARGUMENTS];
};
extern struct place place;

/* Counts one compared call by what it answered, which has to be an answer that the operation has. */
void count_answer(enum operation operation, uint64_t answer);

/* Counts one compared sum of this many bits. It is a number, and no answer with a code. */
void count_sum(size_t sum, size_t bits);

/* Counts a failure that is told although another start, a lower or a higher one, fails on a line as long. */
void count_rivalry(bool lower, enum rivalry rivalry);

/* Counts something that is lent as NULL, because it is empty. */
enum lendable { JOB_FILE, LINE, LINE_BUFFER, WORKING_LIST, WORKING_WORDS, LOG, RULES_FILE, CELLS_PART, LENDABLE };
void count_null(enum lendable what);

/* Counts a difference, and tells of the first: what was demanded, and what the sides answered. */
void demand(bool holds, const char *demanded);
void demand_equal(uint64_t nessflurry, uint64_t plain);

/* Counts a difference that no single call has, and of which the caller tells. */
void count_difference(void);

void print_tally(void);

/*
 * Whether every answer and every refusal of every operation, a failure with each end kind, failures told before that of a lower and
 * of a higher start by each reason that there can be, accepted checks whose pairs, or those reached, fill words, one that reaches
 * all pairs, each thing as NULL, a possible log of the greatest length, parts filled with each number of fluents, one of the
 * greatest length, one by a rules file that is longer than a job file may be, and one by more rules than a number of 16 bits can
 * say have been seen; names what has not.
 */
bool all_seen(void);

uint64_t differences(void);

/* The last line: `N comparisons, M differences`. */
void print_comparisons(void);

#endif
