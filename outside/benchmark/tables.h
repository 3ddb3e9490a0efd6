/*
 * The tables of the benchmark.
 */
#ifndef OUTSIDE_TABLES_H
#define OUTSIDE_TABLES_H

/* Reader, run, report and replay. */
void print_operations(void);

/* The check, the one up to a number of lamps, and how the check's time grows. */
void print_checks(void);
void print_checks_up_to(void);
void print_growth(void);

/* Of the tables of checks before: where the product is furthest behind, and where it is furthest ahead of the walking loop. */
void print_extremes(void);

/* The sum of the pairs alone. */
void print_sums(void);

/* Cells from rules. */
void print_fills(void);

#endif
