/*
 * The layout of a job file, bench line G, a job of three end kinds, and the samples of a walk and of a street.
 */
#include "job_files.h"

/* ---- The layout ---- */

enum { PAIRS_AT = 8, FIRST_PART_AT = 28 };

static size_t put_marks(const struct job *job, uint8_t *to)
{
    memcpy(to, job->marks, job->actions);
    return job->actions;
}

static size_t put_cells(const struct job *job, uint8_t *to)
{
    size_t at = 0;
    for (int action = 0; action < job->actions; action++)
        for (int world = 0; world < job->worlds; world++)
            for (int column = 0; column < columns_of(job); column++) {
                to[at++] = job->cells[action][world][column].next;
                to[at++] = job->cells[action][world][column].result;
            }
    return at;
}

static size_t put_starts(const struct job *job, uint8_t *to)
{
    memcpy(to, job->starts, job->worlds);
    return job->worlds;
}

static size_t put_goal(const struct job *job, uint8_t *to)
{
    size_t columns = columns_of(job);
    for (int world = 0; world < job->worlds; world++)
        memcpy(to + world * columns, job->goal[world], columns);
    return job->worlds * columns;
}

static size_t put_plan(const struct job *job, uint8_t *to)
{
    size_t row = 1u + job->results;
    for (int state = 0; state < job->states; state++) {
        to[state * row] = job->action[state];
        memcpy(to + state * row + 1, job->target[state], job->results);
    }
    return job->states * row;
}

static size_t (*const put_part[PARTS])(const struct job *, uint8_t *) = {put_marks, put_cells, put_starts, put_goal, put_plan};

static uint16_t number_at(const struct file *file, size_t at)
{
    return (uint16_t)(file->bytes[at] | file->bytes[at + 1] << 8);
}

static void set_number(struct file *file, size_t at, uint16_t number)
{
    file->bytes[at] = (uint8_t)number;
    file->bytes[at + 1] = (uint8_t)(number >> 8);
}

uint16_t part_offset(const struct file *file, enum part part) { return number_at(file, PAIRS_AT + 4u * part); }

uint16_t part_length(const struct file *file, enum part part) { return number_at(file, PAIRS_AT + 4u * part + 2); }

void set_pair(struct file *file, enum part part, uint16_t offset, uint16_t length)
{
    set_number(file, PAIRS_AT + 4u * part, offset);
    set_number(file, PAIRS_AT + 4u * part + 2, length);
}

void write_file(struct file *file, const struct job *job, struct random *random)
{
    const uint8_t numbers[PAIRS_AT] = {job->actions, job->worlds, job->kinds,    job->results,
                                       job->states,  job->first,  job->last_end, 0};
    size_t at = FIRST_PART_AT;
    memcpy(file->bytes, numbers, PAIRS_AT);
    for (enum part part = MARKS; part < PARTS; part++) {
        random_bytes(random, file->bytes + at, job->gap[part]);
        at += job->gap[part];
        size_t length = put_part[part](job, file->bytes + at);
        set_pair(file, part, (uint16_t)at, (uint16_t)length);
        at += length;
    }
    random_bytes(random, file->bytes + at, job->gap[PARTS]);
    file->size = at + job->gap[PARTS];
}

/* ---- Numbers and tables ---- */

void set_numbers(struct job *job, struct job_numbers numbers)
{
    job->actions = numbers.actions;
    job->worlds = numbers.worlds;
    job->kinds = numbers.kinds;
    job->results = numbers.results;
    job->states = numbers.states;
    job->last_end = numbers.last_end;
}

void clear_tables(struct job *job)
{
    memset(job->marks, 0, sizeof job->marks);
    memset(job->starts, 0, sizeof job->starts);
    memset(job->goal, 0, sizeof job->goal);
    memset(job->action, 0, sizeof job->action);
    memset(job->target, NONE, sizeof job->target);
    for (int action = 0; action < MOST_ACTIONS; action++)
        for (int world = 0; world < MOST_WORLDS; world++)
            for (int column = 0; column < MOST_COLUMNS; column++)
                job->cells[action][world][column] = (struct cell){0, NONE};
}

/* With no gaps, and state 0 first. */
static void empty_job(struct job *job, struct job_numbers numbers)
{
    memset(job, 0, sizeof *job);
    set_numbers(job, numbers);
    clear_tables(job);
}

static void set_row(struct job *job, uint8_t state, uint8_t action, uint8_t if_0, uint8_t if_1)
{
    job->action[state] = action;
    job->target[state][0] = if_0;
    job->target[state][1] = if_1;
}

/* ---- Bench line G ---- */

enum { PEEK, TEST, NEXT, FLAG };
enum { CLEAR, FLAGGED, SPOILT };
enum { SOUND = 1, FAULTY = 2 };

static struct cell bench_cell(int action, uint8_t world, uint8_t column)
{
    const struct cell not_legal = {0, NONE};
    bool right = (world == CLEAR && column == SOUND) || (world == FLAGGED && column == FAULTY);
    if (action == PEEK)
        return (struct cell){world, column != 0};
    if (column == 0)
        return not_legal;
    if (action == TEST)
        return (struct cell){world, (uint8_t)(column - 1)};
    if (action == NEXT)
        return (struct cell){right ? CLEAR : SPOILT, 0};
    if (world == FLAGGED)
        return not_legal;
    return (struct cell){world == CLEAR ? FLAGGED : SPOILT, 0};
}

static void bench_tables(struct job *job)
{
    empty_job(job, (struct job_numbers){.actions = 4, .worlds = 3, .kinds = 2, .results = 2, .states = 4});
    job->marks[NEXT] = 1;
    job->starts[CLEAR] = 1;
    job->goal[CLEAR][0] = 1;
    for (int action = 0; action < job->actions; action++)
        for (uint8_t world = 0; world < job->worlds; world++)
            for (uint8_t column = 0; column < columns_of(job); column++)
                job->cells[action][world][column] = bench_cell(action, world, column);
}

static void five_states(struct job *job)
{
    job->states = 5;
    set_row(job, 0, PEEK, 5, 1);
    set_row(job, 3, NEXT, 4, NONE);
    set_row(job, 4, PEEK, 5, NONE);
}

void bench_line(struct job *job, enum bench_variant variant)
{
    bench_tables(job);
    set_row(job, 0, PEEK, 4, 1);
    set_row(job, 1, TEST, 3, 2);
    set_row(job, 2, FLAG, 3, NONE);
    set_row(job, 3, NEXT, 0, NONE);
    switch (variant) {
    case BENCH_TEST_UNHEEDED: set_row(job, 1, TEST, 3, 3); break;
    case BENCH_PEEK_FOR_EVER: set_row(job, 0, PEEK, 4, 0); break;
    case BENCH_END_UNFORESEEN: set_row(job, 0, PEEK, NONE, 1); break;
    case BENCH_ENDS_AT_ONCE: job->first = 4; break;
    case BENCH_FIRST_TEST: job->first = 1; break;
    case BENCH_FIVE_STATES: five_states(job); break;
    case BENCH_ONE_LATER: job->gap[CELLS] = 1; break;
    default: break;
    }
}

/* ---- Three end kinds ---- */

enum { THREE_LOOK, THREE_NEXT, THREE_SEAL, THREE_SET_FUSE };
enum { UNTOUCHED, SEALED, FUSE_SET };
enum { LAMP = THREE_ENDS }; /* what a look tells, beside the end kinds */

static struct cell three_ends_cell(const struct job *job, int action, uint8_t world, uint8_t column)
{
    const struct cell not_legal = {0, NONE};
    if (action == THREE_LOOK)
        return (struct cell){world, is_end(job, column) ? column : LAMP};
    if (action == THREE_NEXT)
        return is_end(job, column) ? not_legal : (struct cell){world, 0};
    if (action == THREE_SEAL)
        return world == UNTOUCHED && column == JOINT_BOX ? (struct cell){SEALED, 0} : not_legal;
    return world == UNTOUCHED && column == FUSE_BOX ? (struct cell){FUSE_SET, 0} : not_legal;
}

void three_ends_job(struct job *job)
{
    empty_job(job, (struct job_numbers){4, 3, 2, 4, 4, .last_end = FUSE_BOX});
    job->marks[THREE_NEXT] = 1;
    job->starts[UNTOUCHED] = 1;
    job->goal[UNTOUCHED][CAP] = job->goal[SEALED][JOINT_BOX] = job->goal[FUSE_SET][FUSE_BOX] = 1;
    for (int action = 0; action < job->actions; action++)
        for (uint8_t world = 0; world < job->worlds; world++)
            for (uint8_t column = 0; column < columns_of(job); column++)
                job->cells[action][world][column] = three_ends_cell(job, action, world, column);
    set_row(job, 0, THREE_LOOK, 4, 2);
    job->target[0][FUSE_BOX] = 3;
    job->target[0][LAMP] = 1;
    set_row(job, 1, THREE_NEXT, 0, NONE);
    set_row(job, 2, THREE_SEAL, 4, NONE);
    set_row(job, 3, THREE_SET_FUSE, 4, NONE);
}

/* ---- The samples of a walk and of a street ---- */

enum { EXAMPLE_PEEK, EXAMPLE_NEXT };

void example_job(struct job *job)
{
    empty_job(job, (struct job_numbers){.actions = 2, .worlds = 1, .kinds = 1, .results = 2, .states = 2});
    job->marks[EXAMPLE_NEXT] = 1;
    job->cells[EXAMPLE_PEEK][0][0] = (struct cell){0, 0};
    job->cells[EXAMPLE_PEEK][0][1] = (struct cell){0, 1};
    job->cells[EXAMPLE_NEXT][0][1] = (struct cell){0, 0};
    job->starts[0] = 1;
    job->goal[0][0] = 1;
    set_row(job, 0, EXAMPLE_PEEK, 2, 1);
    set_row(job, 1, EXAMPLE_NEXT, 0, NONE);
}

enum { STREET_LOOK, STREET_FIT_FUSE, STREET_NEXT };
enum { NONE_LEFT, NEW_FUSE, LEFT_DARK }; /* 3 is a new fuse after a lamp that was left dark */
enum { DARK = 2 }; /* a lit lamp is of kind 1 */

static struct cell street_cell(int action, uint8_t world, uint8_t column)
{
    const struct cell not_legal = {0, NONE};
    const bool needs_fuse = column == DARK && world % LEFT_DARK != NEW_FUSE;
    if (action == STREET_LOOK)
        return (struct cell){world, column};
    if (action == STREET_FIT_FUSE)
        return needs_fuse ? (struct cell){(uint8_t)(world + NEW_FUSE), 0} : not_legal;
    if (column == 0)
        return not_legal;
    return (struct cell){needs_fuse || world >= LEFT_DARK ? LEFT_DARK : NONE_LEFT, 0};
}

void street_job(struct job *job)
{
    empty_job(job, (struct job_numbers){.actions = 3, .worlds = 4, .kinds = 2, .results = 3, .states = 3});
    job->marks[STREET_NEXT] = 1;
    job->starts[NONE_LEFT] = 1;
    job->goal[NONE_LEFT][0] = 1;
    for (int action = 0; action < job->actions; action++)
        for (uint8_t world = 0; world < job->worlds; world++)
            for (uint8_t column = 0; column < columns_of(job); column++)
                job->cells[action][world][column] = street_cell(action, world, column);
    set_row(job, 0, STREET_LOOK, 3, 2);
    job->target[0][DARK] = 1;
    set_row(job, 1, STREET_FIT_FUSE, 2, NONE);
    set_row(job, 2, STREET_NEXT, 0, NONE);
}
