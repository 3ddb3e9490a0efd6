/*
 * Calls of each operation on both sides with equal things lent to each. A call is compared in its answer and in every lent
 * byte, and counted; what it gives back is the product's answer.
 */
#ifndef OUTSIDE_CALLS_H
#define OUTSIDE_CALLS_H

#include "job_files/arguments.h"
#include "job_files/rules_files.h"

/* Room for what is lent: before the first call. */
void open_rooms(void);

/* The file that all later calls are handed. */
void take_file(const struct file *file, struct random *random);

uint64_t compare_read(struct random *random);
uint64_t compare_walk(uint8_t state, uint8_t world, uint8_t column);
uint64_t compare_run(uint8_t start, const uint8_t *line, size_t lamps, uint8_t end, uint32_t limit);
uint64_t compare_begin(uint16_t lamps);
uint64_t compare_action(uint8_t state, uint16_t lamps);
uint64_t compare_report(uint8_t state, uint16_t lamps, uint8_t result);
uint64_t compare_replay(const uint8_t *log, size_t log_size);

/*
 * A check, with random content in the buffers before: the one up to `longest` lamps, or with NO_BOUND the full one. Each
 * buffer is at most ROOM_BEYOND elements larger than is enough for every job. Where the check fails, the line is written to
 * `failing`, of NESSFLURRY_LINE_SIZE.
 */
enum { NO_BOUND = NESSFLURRY_MAX_LAMPS + 1, ROOM_BEYOND = 100 };
typedef uint64_t check_comparison(uint32_t longest, struct sizes sizes, uint8_t *failing, struct random *random);
check_comparison compare_check;

/* The same, with every bit of the buffers 1 before. */
check_comparison compare_check_over_ones;

/*
 * The same as the first, with the product's check alone on a small stack (small_stack.h); and the most bytes of it that such a
 * check has taken. On the plain side it is the form that remembers, since the other takes long on the largest jobs.
 */
check_comparison compare_check_alone;
size_t most_stack_taken(void);

/*
 * Cells from a rules file and the numbers that are given with it, into a part of this size, with random content before. Where it
 * is filled, it is written to `filled`, of PART_ROOM bytes. The job file is not handed over.
 */
enum { PART_ROOM = NESSFLURRY_MAX_CELLS_SIZE + 65536 };
uint64_t compare_fill(const struct rules *rules, size_t part_size, uint8_t *filled, struct random *random);

/* The sum of at most MOST_WORDS words and any number of bits. It is not handed the file. */
enum { MOST_WORDS = NESSFLURRY_WORDS_SIZE + ROOM_BEYOND };
size_t compare_sum(const uint64_t *words, size_t words_size, size_t bits);

#endif
