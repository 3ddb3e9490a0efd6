/*
 * The two sides that are held against each other: the product, through the functions that its header defines for C and the sum
 * that it has for the tests, and the plain implementation.
 */
#ifndef OUTSIDE_SIDES_H
#define OUTSIDE_SIDES_H

#include "nessflurry.h"
#include "pair_sum.h"
#include "plain.h"

enum { NESSFLURRY, PLAIN, SIDES };

struct side {
    const char *name;
    uint64_t (*read)(const uint8_t *file, size_t file_size, uint16_t head[NESSFLURRY_HEAD_SIZE]);
    uint64_t (*walk)(const uint8_t *file, size_t file_size, uint8_t state, uint8_t world, uint8_t column);
    uint64_t (*run)(const uint8_t *file, size_t file_size, uint8_t start, const uint8_t *line, size_t lamps, uint8_t end,
                    uint32_t limit);
    check_call *check;
    check_up_to_call *check_up_to;
    uint64_t (*begin)(const uint8_t *file, size_t file_size, uint16_t lamps);
    uint64_t (*action)(const uint8_t *file, size_t file_size, uint8_t state, uint16_t lamps);
    uint64_t (*report)(const uint8_t *file, size_t file_size, uint8_t state, uint16_t lamps, uint8_t result);
    uint64_t (*replay)(const uint8_t *file, size_t file_size, const uint8_t *log, size_t log_size);
    uint64_t (*fill_cells)(const uint8_t *rules, size_t rules_size, uint8_t actions, uint8_t worlds, uint8_t kinds,
                           uint8_t results, uint8_t end_kinds, uint8_t *part, size_t part_size);
    size_t (*sum)(const uint64_t *words, size_t words_size, size_t bits);
};

static const struct side sides[SIDES] = {
    {"nessflurry", nessflurry_read, nessflurry_walk, nessflurry_run, nessflurry_check, nessflurry_check_up_to, nessflurry_begin,
     nessflurry_action, nessflurry_report, nessflurry_replay, nessflurry_fill_cells, pair_sum},
    {"plain", plain_read, plain_walk, plain_run, plain_check, plain_check_up_to, plain_begin, plain_action, plain_report,
     plain_replay, plain_fill_cells, plain_sum},
};

#endif
