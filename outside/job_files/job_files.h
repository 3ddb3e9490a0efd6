/*
 * A job as tables (document 01, "The line and its tables", and document 02, (c)), its file (document 01, "Job file"), bench line
 * G, a job of three end kinds, and the samples of a walk and of a street.
 */
#ifndef OUTSIDE_JOB_FILES_H
#define OUTSIDE_JOB_FILES_H

#include "nessflurry.h"
#include "random.h"

/* The largest numbers that a job may have. */
enum {
    MOST_ACTIONS = 16,
    MOST_WORLDS = 64,
    MOST_COLUMNS = 16, /* of E + C, so that there are 1 to 15 kinds of each */
    MOST_KINDS = MOST_COLUMNS - 1,
    MOST_ENDS = MOST_COLUMNS - 1,
    MOST_RESULTS = 8,
    MOST_STATES = 64
};

/* As a cell's result: the action is not legal. As a plan's target: there is no branch. */
enum { NONE = 255 };

enum part { MARKS, CELLS, STARTS, GOAL, PLAN, PARTS };

struct cell {
    uint8_t next, result;
};

/* A, W, C, R, S and E - 1, which is 0 in a job of one end kind. */
struct job_numbers {
    uint8_t actions, worlds, kinds, results, states, last_end;
};

struct job {
    uint8_t actions, worlds, kinds, results, states, first, last_end;
    uint8_t marks[MOST_ACTIONS];
    struct cell cells[MOST_ACTIONS][MOST_WORLDS][MOST_COLUMNS]; /* by action, world state and column */
    uint8_t starts[MOST_WORLDS];
    uint8_t goal[MOST_WORLDS][MOST_COLUMNS];
    uint8_t action[MOST_STATES];
    uint8_t target[MOST_STATES][MOST_RESULTS];
    uint16_t gap[PARTS + 1]; /* bytes that mean nothing: before each part, and after the last */
};

/* E, and E + C. Columns are the end kinds, and after them the lamp kinds. */
static inline uint8_t ends_of(const struct job *job) { return job->last_end + 1; }
static inline uint8_t columns_of(const struct job *job) { return ends_of(job) + job->kinds; }
static inline bool is_end(const struct job *job, uint32_t column) { return column <= job->last_end; }
static inline uint8_t lamp_column(const struct job *job, uint32_t kind) { return (uint8_t)(job->last_end + kind); }

/* The first column in which the reader lets the action be legal. */
static inline uint8_t first_legal(const struct job *job, uint32_t action) { return job->marks[action] ? ends_of(job) : 0; }

/* There is room for one byte too many, since a file may be too large. */
struct file {
    size_t size;
    uint8_t bytes[NESSFLURRY_MAX_FILE_SIZE + 1];
};

/* The file of a job. Gaps get random bytes. */
void write_file(struct file *file, const struct job *job, struct random *random);

/* Offset and length of a part, as the file states them. */
uint16_t part_offset(const struct file *file, enum part part);
uint16_t part_length(const struct file *file, enum part part);
void set_pair(struct file *file, enum part part, uint16_t offset, uint16_t length);

static inline uint32_t part_end(const struct file *file, enum part part)
{
    return (uint32_t)part_offset(file, part) + part_length(file, part);
}

/* The job's numbers; the rest stays. */
void set_numbers(struct job *job, struct job_numbers numbers);

/* Every cell not legal, every target missing, all other tables 0; the job's numbers and gaps stay. */
void clear_tables(struct job *job);

/* Document 01's bench line G and those of its variants that the reader does not refuse. */
enum bench_variant {
    BENCH_G,
    BENCH_TEST_UNHEEDED,  /* state 1 to 3,3 */
    BENCH_PEEK_FOR_EVER,  /* state 0 to 4,0 */
    BENCH_END_UNFORESEEN, /* state 0 to none,1 */
    BENCH_ENDS_AT_ONCE,   /* first state 4 */
    BENCH_FIRST_TEST,     /* first state 1 */
    BENCH_FIVE_STATES,    /* a further peek after each lamp, with no branch for another lamp */
    BENCH_ONE_LATER,      /* a byte between the first part and the second */
    BENCH_VARIANTS
};
void bench_line(struct job *job, enum bench_variant variant);

/*
 * A plan that deals with three kinds of line's end: a plain cap, a joint box, which is to be sealed, and a fuse box, whose fuse
 * is to be set. It is samples/three_ends.job.
 */
enum { CAP, JOINT_BOX, FUSE_BOX, THREE_ENDS }; /* its end kinds, and their number */
void three_ends_job(struct job *job);

/* samples/walk.job: a plan that walks a line of one kind of lamp to its end. */
void example_job(struct job *job);

/* samples/street.job: a plan that fits a fuse to each dark lamp. Its cells are those that samples/street.rules gives. */
void street_job(struct job *job);

#endif
