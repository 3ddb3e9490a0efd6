/*
 * Jobs with several starts that fail on lines of one length, so that only the order among these decides which is told (document 02,
 * (f)).
 */
#ifndef OUTSIDE_RIVALS_H
#define OUTSIDE_RIVALS_H

#include "job_files.h"

enum { RIVAL_LAMPS = 8, MOST_RIVALS = MOST_WORLDS - 1 };

/* What becomes of a start. Off its own line the plan ends well. */
struct rival {
    uint8_t line[RIVAL_LAMPS];
    bool at_lamp;    /* it fails at the last lamp of its line */
    uint16_t ends;   /* it fails at the end of its line with these end kinds, as bits */
    uint8_t becomes; /* the rival as which it goes on after each lamp, mostly itself */
};

/*
 * World states are the rivals, all of them starts, and one in which the goal is true. Rivals with neighbouring numbers fail in
 * different ways. C and E are set before; each line has this many lamps, at most RIVAL_LAMPS.
 */
void rival_job(struct job *job, uint8_t lamps, const struct rival *rivals, uint8_t count);

/* Any rivals, of which the highest fails in any case. Many have the same line, or become one. */
void random_rivals(struct job *job, struct random *random, uint8_t lamps, uint8_t count);

/*
 * As many rivals as the job has worlds for, all along one line of RIVAL_LAMPS lamps. Only the highest fails, with the highest end
 * kind. W, C and E are set before.
 */
void rivals_in_step(struct job *job);

/* Two rivals, in a job of two lamp kinds and three end kinds: where each of them fails. Lines are told by their kinds. */
enum known_rivals {
    RIVALS_KIND,          /* on 2, and on 1, at the lamp */
    RIVALS_FIRST_KIND,    /* on 2 1, and on 1 2, at the last lamp */
    RIVALS_LAST_KIND,     /* on 1 2, and on 1 1, at the last lamp */
    RIVALS_SAME_MIDDLE,   /* on 2 1 1, and on 1 1 2, at the last lamp */
    RIVALS_KIND_OR_END,   /* on 2 with end kind 0, and on 1 with 1 */
    RIVALS_KIND_OR_LAMP,  /* on 2 at the lamp, and on 1 with end kind 1 */
    RIVALS_END,           /* on the empty line with end kind 1, and with 0 */
    RIVALS_LONG_END,      /* on 1 2 with end kind 1, and with 0 */
    RIVALS_TWO_ENDS,      /* on 1 with end kind 2, and with 0 and 1 */
    RIVALS_LAMP,          /* on 1 with end kind 1, and at the lamp */
    RIVALS_LONG_LAMP,     /* on 1 2 with end kind 1, and at the last lamp */
    RIVALS_END_0_OR_LAMP, /* on 1 with end kind 0, and at the lamp */
    RIVALS_SAME_END,      /* on 1, both with end kind 1 */
    RIVALS_SAME_LAMP,     /* on 1, both at the lamp */
    RIVALS_JOINED,        /* on 1 with end kind 1, as both have become the first */
    RIVALS_LONG_JOINED,   /* on 1 1 in the same way */
    RIVALS_JOINED_APART,  /* on 2 1, and on 1 1, with end kind 1, as both have become the first */
    KNOWN_RIVALS
};

/* As they are listed, the first with the lower start, or mirrored. */
void known_rivals(struct job *job, enum known_rivals which, bool mirrored);

#endif
