/*
 * The operations of documents 01 and 02, once more and plainly. Each function takes and answers what its namesake in
 * nessflurry.h does: the codes, the layout of the answers and what each field holds are described there. The sum is described
 * in pair_sum.h.
 */
#ifndef PLAIN_H
#define PLAIN_H

#include "nessflurry.h"

uint64_t plain_read(const uint8_t *file, size_t file_size, uint16_t head[NESSFLURRY_HEAD_SIZE]);
uint64_t plain_walk(const uint8_t *file, size_t file_size, uint8_t state, uint8_t world, uint8_t column);
uint64_t plain_run(const uint8_t *file, size_t file_size, uint8_t start, const uint8_t *line, size_t lamps, uint8_t end,
                   uint32_t limit);
uint64_t plain_begin(const uint8_t *file, size_t file_size, uint16_t lamps);
uint64_t plain_action(const uint8_t *file, size_t file_size, uint8_t state, uint16_t lamps);
uint64_t plain_report(const uint8_t *file, size_t file_size, uint8_t state, uint16_t lamps, uint8_t result);
uint64_t plain_replay(const uint8_t *file, size_t file_size, const uint8_t *log, size_t log_size);
uint64_t plain_fill_cells(const uint8_t *rules, size_t rules_size, uint8_t actions, uint8_t worlds, uint8_t kinds,
                          uint8_t results, uint8_t end_kinds, uint8_t *part, size_t part_size);

/* The two checks, each in two forms that answer the same: one walks each time, the other remembers what walks came to. */
typedef uint64_t check_call(const uint8_t *file, size_t file_size, uint8_t *line, size_t line_size, uint32_t *list,
                            size_t list_size, uint64_t *words, size_t words_size);
typedef uint64_t check_up_to_call(const uint8_t *file, size_t file_size, uint16_t longest, uint8_t *line, size_t line_size,
                                  uint32_t *list, size_t list_size, uint64_t *words, size_t words_size);
check_call plain_check, plain_check_remembering;
check_up_to_call plain_check_up_to, plain_check_up_to_remembering;

size_t plain_sum(const uint64_t *words, size_t words_size, size_t bits);

#endif
