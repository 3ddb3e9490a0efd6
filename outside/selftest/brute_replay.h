/*
 * The replay by trying every start and every line that is long enough: slow, and with nothing in it that could hide a line. It
 * takes the job at hand from its tables, and judges what plain_replay makes of its file.
 */
#ifndef BRUTE_REPLAY_H
#define BRUTE_REPLAY_H

#include "job_files/logs.h"

/* The entries of the longest log that is tried, since every line of as many lamps is. */
enum { BRUTE_ENTRIES = 8 };

/* The replay says what the search over all lines says. Answers that. */
uint64_t expect_replay_as_brute(const struct log *log);

#endif
