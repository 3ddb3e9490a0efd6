/*
 * What the answer of a check says: of its line buffer, and of the other check.
 */
#ifndef OUTSIDE_CHECK_ANSWERS_H
#define OUTSIDE_CHECK_ANSWERS_H

#include "nessflurry.h"

/* The lamps of the line that a check with this answer has written: none, if it has not failed. */
uint32_t lamps_written(uint64_t answer);

/*
 * What the check up to `longest` lamps owes where the full check has this answer and both are lent buffers of the same sizes
 * (02, (b)): the same refusal, the same failure if its line is not longer, or else none up to `longest`.
 */
uint64_t due_up_to(uint16_t longest, uint64_t full);

#endif
