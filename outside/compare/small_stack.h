/*
 * Work on a stack of exactly the size that nessflurry.h says a check needs. It is done on a thread whose stack lies between two
 * pages that nobody may touch, so that the use of more traps.
 */
#ifndef OUTSIDE_SMALL_STACK_H
#define OUTSIDE_SMALL_STACK_H

#include <stddef.h>

/* Does the work, and waits for its end. Answers how many bytes of stack it took, the last page whole. */
size_t on_small_stack(void (*work)(void *), void *with);

#endif
