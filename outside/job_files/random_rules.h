/*
 * Rules files that are not refused: any, long ones, those that say the cells of a job, and by what they cost.
 */
#ifndef OUTSIDE_RANDOM_RULES_H
#define OUTSIDE_RANDOM_RULES_H

#include "rules_files.h"

/* Of any numbers, fluents and rules: few of each often, the most sometimes. */
void random_rules(struct rules *rules, struct random *random);

/* Of few cells, with more bytes than 65,535 or nearly, and sometimes more rules. No rule is about action 0. */
void long_rules(struct rules *rules, struct random *random);

/* Of few cells, for tests that are slow. */
void small_rules(struct rules *rules, struct random *random);

/* A rule for each legal cell of the job, in any order. There has to be room for them. */
void rules_of_cells(struct rules *rules, const struct job *job, struct random *random);

/* This many rules, the actions in turn. Each wants a value of each fluent at one column, or nothing at all at any. */
void sized_rules(struct rules *rules, struct fill_numbers numbers, uint32_t fluents, size_t count, bool particular);

#endif
