/*
 * A run, step by step. The library tells how a run ends, and not each step on the way; the steps are made here from the plan's
 * moves, which the library's cabinet gives, and from the tables, which are read here. Their ending is held against the library's.
 */
#ifndef LAMPLINE_STEPS_H
#define LAMPLINE_STEPS_H

#include "files.h"

/* What the library's run is handed beside the file. */
struct line_run {
    uint8_t start;
    const uint8_t *line;
    size_t lamps;
    uint8_t end;
    uint32_t limit;
};

uint64_t answer_of(const struct file *file, const struct line_run *run);

/*
 * Prints the steps of a run that the library does not refuse, and what comes after the last. Answers whether the run ends so by
 * the library too; if not, says so on standard error.
 */
bool print_steps(const struct file *file, const struct line_run *run);

#endif
