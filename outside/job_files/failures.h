/*
 * Failures that a check tells: which of two comes first, and by what.
 */
#ifndef OUTSIDE_FAILURES_H
#define OUTSIDE_FAILURES_H

#include "job_files.h"

/* A failing answer, and the line that was written with it. */
struct failure {
    uint64_t answer;
    uint8_t line[NESSFLURRY_LINE_SIZE];
};

/*
 * By the order of failing lines (01, The check; 02, (c) and (f)): fewer lamps come first, then the lower kind at the first lamp
 * that differs, then the lower end kind, and then the lower start.
 */
bool comes_first(const struct failure *one, const struct failure *other);

/*
 * By what a failure comes before that of another start on a line as long. A failure at the last lamp comes with every end kind, and
 * is told with 0.
 */
enum rivalry {
    EARLIER_LINE,
    LOWER_END,       /* of the same line, both at the end */
    LAMP_BEFORE_END, /* at the last lamp of the same line; the other with a higher end kind than 0 */
    LAMP_AND_END_0,  /* at the last lamp of the same line; the other with end kind 0, and the higher start */
    END_0_AND_LAMP,  /* with end kind 0 of the same line; the other at the last lamp, and the higher start */
    SAME_PLACE,      /* the same line and end kind, both at the last lamp or both at the end; the other the higher start */
    RIVALRIES,
    BY_START = LAMP_AND_END_0 /* from here on the start decides, so that the other is never the lower one */
};
extern const char *const rivalry_names[RIVALRIES];

/* Both failures are of the job, and that which comes first is told. */
enum rivalry rivalry_of(const struct job *job, const struct failure *told, const struct failure *other);

#endif
