/*
 * The full check, and beside it the check up to a number of lamps, which owes an answer by that of the full one.
 */
#ifndef OUTSIDE_BOTH_CHECKS_H
#define OUTSIDE_BOTH_CHECKS_H

#include "calls.h"

/*
 * Compares the full check and, with buffers of the same sizes, the one up to several numbers of lamps. Answers what the full
 * one does; where that fails, its line is written to `failing`, of NESSFLURRY_LINE_SIZE.
 */
uint64_t compare_both_checks(check_comparison *compare, struct sizes sizes, uint8_t *failing, struct random *random);

#endif
