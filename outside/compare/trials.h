/*
 * Trials: a file, and what is tried on it. Each trial is made from its number, and nothing else.
 */
#ifndef OUTSIDE_TRIALS_H
#define OUTSIDE_TRIALS_H

#include "job_files/failures.h"
#include "job_files/families.h"
#include "job_files/rivals.h"
#include "job_files/rules_files.h"

struct trial {
    struct random random;
    struct job job; /* what the file was made from */
    struct file file;
    bool sound;     /* the file is that of the job, with nothing damaged */
    unsigned due;   /* the refusal that is due for the file, or 0 where it is sound or not known */
};

/* Trials of rules files that do not depend on a job: what each of them goes through is in try_known_rules.c. */
enum {
    KNOWN_RULES_PLACES = (47 + 5) + (37 + 5) + (52 + 5), /* bytes of the known files, and the numbers that are given with each */
    FIRST_RULES_SIZES = KNOWN_RULES_PLACES,              /* before it: each of these places */
    FIRST_LAMP_KINDS = FIRST_RULES_SIZES + KNOWN_RULES,  /* before it: the sizes of each file */
    FIRST_COUNTS = FIRST_LAMP_KINDS + 256,               /* before it: each number of lamp kinds */
    FIRST_MANY_RULES = FIRST_COUNTS + 256,               /* before it: each count of a first fluent */
    LEAST_MANY_RULES = UINT16_MAX - 7,                   /* rules of the first of those with many */
    RULES_TRIALS = FIRST_MANY_RULES + 32                 /* more than 17 with over 65,535 rules, so that a short run has one */
};

/* Trials are numbered from 0. From FIRST_RANDOM on they are random; those before go through what can be gone through. */
enum {
    BENCH_BYTES = 128,                               /* of bench line G's file */
    ENDS_BYTES = 190,                                /* of that of the job of three end kinds */
    FIRST_ENDS = BENCH_BYTES * 256,                  /* before it: the first of the two with each byte at each value */
    FIRST_SIZE = FIRST_ENDS + ENDS_BYTES * 256,      /* before it: the second one like this */
    FIRST_BENCH = FIRST_SIZE + BENCH_BYTES + 32 + 3, /* before it: the first at sizes up to 159 and at the largest three */
    FIRST_RIVALS = FIRST_BENCH + BENCH_VARIANTS,
    FIRST_CROWDED = FIRST_RIVALS + 2 * KNOWN_RIVALS,                  /* before it: known rivals, each two as listed and mirrored */
    FIRST_COUNTING = FIRST_CROWDED + (MOST_STATES + 1) * MOST_WORLDS, /* before it: a crowded job of each S and W */
    FIRST_LARGE = FIRST_COUNTING + (MOST_STATES - 1) * MOST_WORLDS,   /* before it: a counting job of each W, and S from 2 on */
    FIRST_RULES = FIRST_LARGE + (SIZES - FULL) * SIZED_JOBS,
    FIRST_RANDOM = FIRST_RULES + RULES_TRIALS
};
void make_trial(struct trial *trial, uint32_t number);

/* Every operation on a file, whatever it is. */
void try_file(struct trial *trial);

/* What holds of a sound file. */
void try_walks(struct trial *trial);
void try_run(struct trial *trial);
void try_short_buffers(struct trial *trial);
void try_cabinet_calls(struct trial *trial);

/* The checks, and what follows from them for runs; answers whether the plan is accepted. */
bool try_checks(struct trial *trial);

/* The check of one start alone, for some of the job's starts, beside the failure that is told of all. */
void try_starts_alone(struct trial *trial, const struct failure *told);

/* The checks, each of the product's with the small stack for itself (small_stack.h). */
void try_checks_alone(struct trial *trial);

/* The full check over buffers of several contents and sizes, which have to come to the same; answers what they come to. */
uint64_t try_contents(struct trial *trial);

/* Sums of words of any content: of as many bits as the job has pairs, of one fewer and one more, and of any number. */
void try_sums(struct trial *trial);

/* A cabinet that is led along a line. */
void lead_cabinet(struct trial *trial, bool accepted);

/* Logs, most of them with a few entries; and one with as many as there may be, if the plan goes on for so long. */
void try_logs(struct trial *trial);
void try_longest_log(struct trial *trial);

/* Any rules files, sound and damaged, with parts of right and wrong sizes; and what holds of a filled part in a job file. */
void try_rules(struct trial *trial);

/* Rules that say the cells of the job, if it has not too many. */
void try_rules_of_cells(struct trial *trial);

/* One of the RULES_TRIALS. */
void try_known_rules(struct trial *trial, uint32_t which);

#endif
