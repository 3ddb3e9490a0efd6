/*
 * Damage to rules files and to the numbers that are given with them.
 */
#ifndef OUTSIDE_RULES_DAMAGE_H
#define OUTSIDE_RULES_DAMAGE_H

#include "rules_files.h"

/* Puts a defect into a file that is not refused, after which 22 is due. Where it can be, nothing else is wrong. */
void damage_rules(struct rules *rules, struct random *random);

/* Overwrites a byte of the file or of the numbers, wherever it is; what is owed then is not known. */
void scramble_rules(struct rules *rules, struct random *random);

/* The five numbers by place: A, W, C, R and E. */
enum { FILL_NUMBERS = 5 };
uint8_t *fill_number(struct rules *rules, uint32_t which);

#endif
