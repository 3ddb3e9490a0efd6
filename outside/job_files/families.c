/*
 * Random jobs: tables with no meaning, plans that are right, members of the other families, and each of them with one change; and
 * rivals.
 */
#include "families.h"

#include "arguments.h"
#include "rivals.h"

/* ---- Numbers, starts and gaps ---- */

/* End kinds for which there is room beside the lamp kinds, often all; where there is none, some columns are taken from those. */
static void choose_ends(struct job *job, struct random *random)
{
    uint8_t most = MOST_KINDS - job->kinds;
    if (most > 0) {
        job->last_end = one_in(random, 4) ? most : mostly_small(random, 0, most);
    } else {
        job->last_end = (uint8_t)below(random, MOST_ENDS);
        job->kinds = MOST_KINDS - job->last_end;
    }
}

/* Of actions, results and states at least these. */
static void choose_numbers(struct job *job, struct random *random, bool several_ends, uint8_t actions, uint8_t results,
                           uint8_t states)
{
    job->actions = mostly_small(random, actions, MOST_ACTIONS);
    job->worlds = mostly_small(random, 1, MOST_WORLDS);
    job->kinds = mostly_small(random, 1, MOST_KINDS);
    job->results = mostly_small(random, results, MOST_RESULTS);
    job->states = mostly_small(random, states, MOST_STATES);
    job->last_end = 0;
    if (one_in(random, 60))
        largest_numbers(job);
    if (several_ends)
        choose_ends(job, random);
}

static void choose_starts(struct job *job, struct random *random)
{
    uint32_t rarity = 1 + below(random, 4);
    for (int world = 0; world < job->worlds; world++)
        job->starts[world] = one_in(random, rarity);
    job->starts[below(random, job->worlds)] = 1;
}

static uint32_t bytes_without_gaps(const struct job *job)
{
    uint32_t columns = columns_of(job);
    return 28u + job->actions + 2u * job->actions * job->worlds * columns + job->worlds + job->worlds * columns
           + job->states * (1u + job->results);
}

static void choose_gaps(struct job *job, struct random *random)
{
    uint32_t room = NESSFLURRY_MAX_FILE_SIZE - bytes_without_gaps(job);
    for (int part = 0; part <= PARTS; part++) {
        uint32_t most = room < 3 || one_in(random, 40) ? room : 3;
        job->gap[part] = (uint16_t)below(random, most + 1);
        room -= job->gap[part];
    }
    if (one_in(random, 40))
        job->gap[PARTS] = (uint16_t)(job->gap[PARTS] + room);
}

/* ---- Random tables ---- */

static struct cell legal_cell(const struct job *job, struct random *random)
{
    uint8_t next = (uint8_t)below(random, job->worlds), result = (uint8_t)below(random, job->results);
    return (struct cell){next, result};
}

static void wild_cells(struct job *job, struct random *random)
{
    uint32_t legality = 1 + below(random, 16);
    for (int action = 0; action < job->actions; action++)
        for (int world = 0; world < job->worlds; world++)
            for (int column = first_legal(job, action); column < columns_of(job); column++)
                if (legality == 1 || !one_in(random, legality))
                    job->cells[action][world][column] = legal_cell(job, random);
}

static void wild_plan(struct job *job, struct random *random)
{
    for (int state = 0; state < job->states; state++) {
        job->action[state] = (uint8_t)below(random, job->actions);
        for (int result = 0; result < job->results; result++) {
            uint8_t target = one_in(random, 4) ? job->states : (uint8_t)below(random, job->states + 1u);
            job->target[state][result] = one_in(random, 12) ? NONE : target;
        }
    }
}

/* Tables with no meaning at all; most of these plans fail within a few lamps. */
static void wild_job(struct job *job, struct random *random, bool several_ends)
{
    uint32_t goal_rarity = 1 + below(random, 12);
    choose_numbers(job, random, several_ends, 1, 1, 0);
    clear_tables(job);
    for (int action = 0; action < job->actions; action++)
        job->marks[action] = one_in(random, 3);
    wild_cells(job, random);
    for (int world = 0; world < job->worlds; world++)
        for (int column = 0; column < columns_of(job); column++)
            job->goal[world][column] = goal_rarity == 1 || !one_in(random, goal_rarity);
    wild_plan(job, random);
    job->first = (uint8_t)below(random, job->states + 1u);
}

/* ---- Plans that are right ---- */

enum { LOOK, PASS }; /* two actions of a right plan: LOOK has its lowest results at the line's end only, PASS moves on */

/* The results of LOOK at the line's end: one for each end kind, as long as one is left for lamps. */
static uint8_t end_results(const struct job *job)
{
    return ends_of(job) < job->results ? ends_of(job) : (uint8_t)(job->results - 1);
}

static uint8_t look_result(const struct job *job, struct random *random, uint32_t column)
{
    uint8_t told = end_results(job);
    return is_end(job, column) ? (uint8_t)(column % told) : (uint8_t)(told + below(random, job->results - told));
}

static void right_cells(struct job *job, struct random *random)
{
    bool slow = one_in(random, 2); /* worlds rise one at a time, so that some are reached by long lines only */
    for (int action = 0; action < job->actions; action++)
        for (int world = 0; world < job->worlds; world++)
            for (int column = first_legal(job, action); column < columns_of(job); column++) {
                uint32_t worlds = slow && world + 2 < job->worlds ? world + 2u : job->worlds;
                struct cell *cell = &job->cells[action][world][column];
                cell->next = (uint8_t)below(random, worlds);
                if (action == LOOK)
                    cell->result = look_result(job, random, column);
                else
                    cell->result = (uint8_t)below(random, job->results);
            }
}

/* A state that is entered at lamps only: it moves on to one that looks, or acts and goes to a later one of its own sort. */
static void lamp_state(struct job *job, struct random *random, uint8_t state, uint8_t looking, bool may_end)
{
    bool last = state + 1 == job->states;
    uint8_t action = last ? PASS : (uint8_t)(1 + below(random, job->actions - 1u));
    job->action[state] = action;
    for (int result = 0; result < job->results; result++) {
        uint8_t *target = &job->target[state][result];
        if (!job->marks[action])
            *target = (uint8_t)(state + 1 + below(random, job->states - state - 1u));
        else
            *target = may_end && one_in(random, 8) ? job->states : (uint8_t)below(random, looking);
    }
}

/* Where a state that looks goes from the line's end: the plan is over, or for all results but 0 a later state looks again. */
static uint8_t after_end(const struct job *job, struct random *random, uint8_t state, uint8_t looking, int result)
{
    if (result == 0 || state + 1 == looking || one_in(random, 2))
        return job->states;
    return (uint8_t)(state + 1 + below(random, looking - state - 1u));
}

static void right_plan(struct job *job, struct random *random, bool may_end)
{
    uint8_t looking = (uint8_t)(1 + below(random, job->states - 1u));
    job->first = (uint8_t)below(random, looking);
    for (uint8_t state = 0; state < looking; state++) {
        job->action[state] = LOOK;
        for (int result = 0; result < job->results; result++)
            job->target[state][result] = result < end_results(job) ? after_end(job, random, state, looking, result)
                                                                   : (uint8_t)(looking + below(random, job->states - looking));
    }
    for (uint8_t state = looking; state < job->states; state++)
        lamp_state(job, random, state, looking, may_end);
}

void right_job(struct job *job, struct random *random)
{
    bool may_end = one_in(random, 2); /* in state S with lamps left: then the goal is true in every column */
    clear_tables(job);
    for (int action = PASS; action < job->actions; action++)
        job->marks[action] = action == PASS || one_in(random, 3);
    right_cells(job, random);
    for (int world = 0; world < job->worlds; world++)
        for (int column = 0; column < columns_of(job); column++)
            job->goal[world][column] = is_end(job, column) || may_end || one_in(random, 2);
    right_plan(job, random, may_end);
}

/* ---- Members of the families ---- */

static void random_right_job(struct job *job, struct random *random, bool several_ends)
{
    choose_numbers(job, random, several_ends, 2, 2, 2);
    right_job(job, random);
}

static void random_counting_job(struct job *job, struct random *random, bool several_ends)
{
    choose_numbers(job, random, several_ends, 2, 2, 2);
    uint8_t some = (uint8_t)below(random, job->states);
    const uint8_t last[] = {job->states, NONE, some};
    counting_job(job, last[below(random, 3)]);
}

static void random_turning_job(struct job *job, struct random *random, bool several_ends)
{
    choose_numbers(job, random, several_ends, 2, 3, 2);
    if (job->states * job->worlds > 512 && !one_in(random, 8)) /* a check by walking takes long where both are large */
        job->worlds = (uint8_t)(512 / job->states);
    uint8_t movers = mostly_small(random, 1, job->states - 1);
    turning_job(job, movers, (uint32_t)random_word(random));
}

/* All of them stay starts. Of the numbers that are chosen, those of lamp kinds and end kinds do. */
static void random_rival_job(struct job *job, struct random *random, bool several_ends)
{
    memset(job->gap, 0, sizeof job->gap);
    choose_numbers(job, random, several_ends, 1, 1, 0);
    uint8_t lamps = mostly_small(random, 0, RIVAL_LAMPS), count = mostly_small(random, 3, MOST_RIVALS);
    random_rivals(job, random, lamps, count);
}

/* ---- One change ---- */

static void change_plan(struct job *job, struct random *random)
{
    uint32_t state = below(random, job->states), result = below(random, job->results);
    switch (below(random, 4)) {
    case 0: job->target[state][result] = NONE; break;
    case 1: job->target[state][result] = (uint8_t)state; break;
    case 2: job->target[state][result] = (uint8_t)below(random, job->states + 1u); break;
    default: job->action[state] = (uint8_t)below(random, job->actions); break;
    }
}

static void change_cell(struct job *job, struct random *random)
{
    uint32_t action = below(random, job->actions), world = below(random, job->worlds);
    uint32_t first = first_legal(job, action), column = first + below(random, columns_of(job) - first);
    job->cells[action][world][column] = one_in(random, 2) ? (struct cell){0, NONE} : legal_cell(job, random);
}

/* One change that leaves a job which the reader does not refuse. */
static void change_job(struct job *job, struct random *random)
{
    uint32_t world = below(random, job->worlds);
    uint32_t column = one_in(random, 2) ? choose_end(job, random) : below(random, columns_of(job));
    switch (below(random, 8)) {
    case 0: job->first = (uint8_t)below(random, job->states + 1u); break;
    case 1: choose_starts(job, random); break;
    case 2:
    case 3: job->goal[world][column] = !job->goal[world][column]; break;
    case 4: change_cell(job, random); break;
    default: job->states > 0 ? change_plan(job, random) : change_cell(job, random); break;
    }
}

static void forbid_actions(struct job *job, uint8_t column)
{
    for (int action = 0; action < job->actions; action++)
        for (int world = 0; world < job->worlds; world++)
            job->cells[action][world][column] = (struct cell){0, NONE};
}

/* Plans that come to one end kind fail there, as no action is legal, or the goal never true. It is the highest one often. */
static void spoil_end(struct job *job, struct random *random)
{
    uint8_t end = one_in(random, 2) ? job->last_end : choose_end(job, random);
    if (one_in(random, 2))
        forbid_actions(job, end);
    else
        for (int world = 0; world < job->worlds; world++)
            job->goal[world][end] = 0;
}

/*
 * At each end kind the goal is false in some worlds. So lines that lead to different worlds fail with different end kinds, and
 * the first line that fails may have a higher one than the next. There is one start, since with many the empty line fails.
 */
static void spoil_ends(struct job *job, struct random *random)
{
    uint32_t rarity = 2 + below(random, 16);
    memset(job->starts, 0, sizeof job->starts);
    job->starts[below(random, job->worlds)] = 1;
    for (int world = 0; world < job->worlds; world++)
        for (int end = 0; end < ends_of(job); end++)
            job->goal[world][end] = !one_in(random, rarity);
}

static void known_job(struct job *job, struct random *random, bool several_ends)
{
    if (several_ends)
        three_ends_job(job);
    else
        bench_line(job, below(random, BENCH_VARIANTS));
}

static void make_job(struct job *job, struct random *random, bool several_ends)
{
    memset(job->gap, 0, sizeof job->gap);
    switch (below(random, 8)) {
    case 0:
    case 1: wild_job(job, random, several_ends); break;
    case 2: random_counting_job(job, random, several_ends); break;
    case 3: random_turning_job(job, random, several_ends); break;
    case 4: known_job(job, random, several_ends); break;
    default: random_right_job(job, random, several_ends); break;
    }
    choose_starts(job, random);
    if (several_ends && one_in(random, 6))
        spoil_end(job, random);
    else if (several_ends && one_in(random, 6))
        spoil_ends(job, random);
    if (one_in(random, 2))
        change_job(job, random);
    if (one_in(random, 4))
        choose_gaps(job, random);
}

void random_job(struct job *job, struct random *random)
{
    bool several_ends = !one_in(random, 3);
    if (one_in(random, 12))
        random_rival_job(job, random, several_ends);
    else
        make_job(job, random, several_ends);
}

void one_end_job(struct job *job, struct random *random) { make_job(job, random, false); }
