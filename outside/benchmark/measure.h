/*
 * The measured calls, and how they are measured.
 */
#ifndef OUTSIDE_MEASURE_H
#define OUTSIDE_MEASURE_H

#include "sides.h"
#include "subjects.h"

/* The checks have a side more: PLAIN walks each time, REMEMBERING keeps what walks came to. */
enum { REMEMBERING = SIDES, CHECK_SIDES };

typedef uint64_t side_call(int side, const struct subject *subject);
side_call call_reader, call_run, call_check, call_check_up_to, call_report, call_replay;

/* Cells from the subject's rules file. */
side_call call_fill;

/* A sum is answered where the other answers have a number of pairs. */
side_call call_sum;

/*
 * The best nanoseconds a call of each side. The sides' answers, lines and filled parts are compared before, and the answer is
 * given back.
 */
uint64_t measure(side_call *call, const struct subject *subject, int sides_called, double best[]);

/*
 * The answer in words: of a run its lamps, steps and ending; of a check whether it accepts or finds none; of a replay its
 * entries and whether they are possible; of a fill the bytes of its rules and of the part; of a sum its ones; of others the
 * file's size.
 */
void print_answer(side_call *call, const struct subject *subject, uint64_t answer);

/* The greatest of some figures, and the job that it was met on. */
struct greatest {
    double figure;
    char name[NAME_BYTES];
};
void note(struct greatest *greatest, double figure, const struct subject *subject);

#endif
