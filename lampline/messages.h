/*
 * What lampline says beside the library's numbers: words for failures and refusals on standard output, complaints on standard
 * error; and how it ends.
 */
#ifndef LAMPLINE_MESSAGES_H
#define LAMPLINE_MESSAGES_H

#include <stdint.h>

/* Exit statuses; of several files the highest is given. */
enum status {
    GOOD = 0,     /* accepted, none up to, goal, moves on, possible, read, filled, ended: what one hopes for */
    NOT_GOOD = 1, /* any other answer of the library */
    NO_ANSWER = 2 /* a wrong argument, a file that cannot be read, an answer that cannot be written */
};

static inline enum status worse(enum status one, enum status other) { return one > other ? one : other; }

/* One line on standard error, after what has been written to standard output. */
void complain(const char *format, ...) __attribute__((format(printf, 1, 2)));

/* The plural's s. */
static inline const char *plural(uint32_t number) { return number == 1 ? "" : "s"; }

/* Failure 1 to 4. */
const char *failure_words(uint8_t failure);

/* Refusal 1 to 23, of every operation but the walk. */
const char *refusal_words(uint8_t refusal);

/* One line for a refused call, name first; NOT_GOOD. */
enum status print_refusal(const char *name, uint64_t answer);

/* The same for a walk, whose refusals 14 and 15 are about a world state and a column. */
enum status print_walk_refusal(const char *name, uint64_t answer);

#endif
