/*
 * The run by following the execution step by step, and the checks by trying every line up to a length: slow, and with
 * nothing in them that could hide a line. They take the job at hand from its tables, and judge what plain_run,
 * plain_check and plain_check_up_to make of its file.
 */
#ifndef BRUTE_H
#define BRUTE_H

#include "job_files/job_files.h"

enum { BRUTE_PAIRS = (MOST_STATES + 1) * MOST_WORLDS };

/*
 * The execution of the line with this end from the start, in the form of plain_run's answer without a limit. Sets
 * reached[q * W + w] for every pair of program state q and world state w with which the execution comes to a lamp, the first one
 * too, or to the end of the line (01, The check), and leaves the rest.
 */
uint64_t brute_run(uint8_t start, const uint8_t *line, size_t lamps, uint8_t end, bool reached[BRUTE_PAIRS]);

/* The next line of as many lamps: first the end kind changes, then the last lamp's kind; false after the last such line. */
bool next_line(uint8_t line[], uint32_t lamps, uint8_t *end);

/*
 * The check says what the search over all lines of up to S·W + 1 lamps and with all end kinds says, the check up to each number
 * of lamps from 0 to that what the search over the lines of up to as many says, and each of these lines runs as its execution
 * does. Answers what the search over all of them says. The job is a small one, since they are tried one by one.
 */
uint64_t expect_as_brute(void);

/* The same, and what the search says is this failure, on a line of these kinds. */
void expect_failed_as_brute(const char *what, uint64_t wanted, const uint8_t *kinds);

#endif
