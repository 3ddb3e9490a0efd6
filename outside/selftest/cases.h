/* What the test cases share: comparing, the job at hand, and its checks with lent buffers; and the groups of cases. */
#ifndef CASES_H
#define CASES_H

#include "job_files/arguments.h"
#include "plain.h"

/* ---- The groups of cases ---- */

void bench_cases(void);
void refusal_cases(void);
void long_line_cases(void);
void form_cases(void);
void up_to_cases(void);
void replay_cases(void);
void end_kind_cases(void);
void order_cases(void);
void sample_cases(void);
void sum_cases(void);
void rules_cases(void);

/* Prints how many of its jobs were accepted, and how many failed in which way on how long a line. */
void random_cases(void);

/* Prints how many failures were told before that of another start, a lower or a higher one, by each reason. */
void rival_cases(void);

/* Prints how many of its logs were possible, and how many impossible from which entry on. */
void log_cases(void);

/* ---- Comparing ---- */

/* How many answers were compared, and how many of them differed; the first of those are printed. */
extern unsigned compared, differing;

void expect(const char *what, uint64_t got, uint64_t wanted);

/*
 * Answers as nessflurry.h lays them out, with the refusal numbers of documents 01 and 02: an ending or an accepted check; a
 * failed check; a refused call; a cabinet's state, which comes from a refused report if the refusal is not 0.
 */
uint64_t ending(unsigned code, uint32_t count);
uint64_t failing(unsigned kind, unsigned start, uint32_t lamps, unsigned end);
uint64_t refused(unsigned refusal);
uint64_t cabinet(unsigned refusal, unsigned state, uint32_t lamps);

/* Prints a row of counts and their sum. */
void print_row(const char *title, const unsigned *numbers, unsigned count);

/* ---- The job at hand ---- */

/* Its tables, and its file, in which a case may change bytes. */
extern struct job job;
extern struct file file;

/* Makes the file anew from the tables. */
void write_job(void);

/* Bench line G or a variant becomes the job at hand. */
void take_bench(enum bench_variant variant);

/* The job of three end kinds becomes the job at hand. */
void take_three_ends(void);

/* The samples' street becomes the job at hand. */
void take_street(void);

/*
 * A job whose first state is the final one becomes the job at hand. The goal is true where the bytes by world and column say so,
 * and every world is a start.
 */
void take_final(uint8_t worlds, uint8_t kinds, uint8_t ends, const uint8_t *goal);

/* The run from start 0. */
void expect_run(const char *what, const uint8_t *line, size_t lamps, uint8_t end, uint32_t limit, uint64_t wanted);

/* The file is refused by every operation, with this number and without a changed byte. */
void expect_refused_file(const char *what, unsigned refusal);

/* ---- Its checks ---- */

/* What is lent to a check, with LENT_BYTE everywhere before it. */
extern struct lent {
    uint8_t line[NESSFLURRY_LINE_SIZE];
    uint32_t list[NESSFLURRY_LIST_SIZE];
    uint64_t words[NESSFLURRY_WORDS_SIZE];
} lent;

/* A check's answer with buffers of these sizes. Both of its forms are tried, and agree in it and in every lent byte. */
uint64_t check_with(struct sizes sizes);
uint64_t check_up_to_with(uint16_t longest, struct sizes sizes);

/* A check's answer with the least that must be lent, and nothing written after that or after the failing line. */
uint64_t check(void);
uint64_t check_up_to(uint16_t longest);

/* The check is refused, and so is the one up to any number of lamps; neither changes a byte. */
void expect_refused_check(const char *what, struct sizes sizes, unsigned refusal);

#endif
