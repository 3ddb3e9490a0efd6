/*
 * The cells of a rules file by writing them rule by rule, from the last to the first, each over what later ones have written: so
 * the first that matches is what stays. World states are gone through by counting the fluents' values up.
 */
#ifndef BRUTE_RULES_H
#define BRUTE_RULES_H

#include "job_files/rules_files.h"

/* Fills a part of part_bytes bytes from a file that is not refused. */
void brute_fill(const struct rules *rules, uint8_t *part);

#endif
