/* Random jobs that are worth checking: right plans and nearly right ones among them. */
#include "small_jobs.h"

#include "job_files/families.h"

static bool chance(struct random *random, unsigned percent)
{
    return below(random, 100) < percent;
}

/* Often the largest number below `bound`, so that the jobs with room for long failing lines are many. */
static uint8_t mostly_largest(struct random *random, unsigned bound)
{
    return (uint8_t)(chance(random, 60) ? bound - 1 : below(random, bound));
}

/*
 * A tidy job: action 0 peeks, that is, it keeps the world and senses 0 at the line's end alone; the others move on, and
 * with the chance `climb` to the next higher world. At a lamp the highest world gives the highest result. So there are
 * worlds and branches that are met on long lines only. Even states peek, and go to the final state at the end and to
 * state 1 at a lamp; odd ones move on and go to an even one. Each choice is made so with the chance `tidiness`, and
 * otherwise freely.
 */
struct maker {
    struct job *job;
    struct random *random;
    unsigned tidiness, climb;
};

static bool tidily(const struct maker *maker)
{
    return chance(maker->random, maker->tidiness);
}

static unsigned random_result(const struct maker *maker, unsigned action, unsigned world, unsigned column)
{
    const unsigned results = maker->job->results;
    if (results == 1 || !tidily(maker))
        return below(maker->random, results);
    if (action == 0 && is_end(maker->job, column))
        return 0;
    return world + 1 == maker->job->worlds ? results - 1 : action == 0 ? 1 : below(maker->random, results - 1);
}

static unsigned random_next(const struct maker *maker, unsigned action, unsigned world)
{
    if (!tidily(maker))
        return below(maker->random, maker->job->worlds);
    const bool higher = action != 0 && world + 1 < maker->job->worlds && chance(maker->random, maker->climb);
    return higher ? world + 1 : world;
}

static struct cell random_cell(const struct maker *maker, unsigned action, unsigned world, unsigned column)
{
    if (column < first_legal(maker->job, action))
        return (struct cell){0, NONE};
    const uint8_t next = (uint8_t)random_next(maker, action, world);
    const uint8_t result = (uint8_t)random_result(maker, action, world, column);
    return (struct cell){next, result};
}

static void make_tables(const struct maker *maker)
{
    struct job *const job = maker->job;
    for (unsigned action = 0; action < job->actions; action++) {
        job->marks[action] = tidily(maker) ? action != 0 : chance(maker->random, 50);
        for (unsigned world = 0; world < job->worlds; world++)
            for (unsigned column = 0; column < columns_of(job); column++)
                job->cells[action][world][column] = random_cell(maker, action, world, column);
    }
    memset(job->goal, 1, sizeof job->goal);
}

static unsigned random_action(const struct maker *maker, unsigned state)
{
    const unsigned actions = maker->job->actions;
    if (actions == 1 || !tidily(maker))
        return below(maker->random, actions);
    return state % 2 == 0 ? 0 : 1 + below(maker->random, actions - 1);
}

static unsigned random_target(const struct maker *maker, unsigned action, unsigned result)
{
    const unsigned final = maker->job->states;
    const unsigned tidy_target = action != 0 ? 2 * below(maker->random, 2) : result == 0 ? final : 1;
    return tidily(maker) && tidy_target <= final ? tidy_target : below(maker->random, final + 1);
}

static void make_plan(const struct maker *maker)
{
    struct job *const job = maker->job;
    for (unsigned state = 0; state < job->states; state++) {
        job->action[state] = (uint8_t)random_action(maker, state);
        for (unsigned result = 0; result < job->results; result++)
            job->target[state][result] = (uint8_t)random_target(maker, job->action[state], result);
    }
}

/* A tidy job, and its plan. */
static void make_tidy(struct job *job, struct random *random)
{
    const unsigned tidiness[] = {100, 100, 95, 70};
    struct maker maker = {.job = job, .random = random};
    maker.tidiness = tidiness[below(random, 4)];
    maker.climb = 30 + below(random, 71);
    make_tables(&maker);
    make_plan(&maker);
}

static void choose_starts(struct job *job, struct random *random)
{
    for (unsigned world = 0; world < job->worlds; world++)
        job->starts[world] = chance(random, 20);
    job->starts[chance(random, 70) ? 0 : below(random, job->worlds)] = 1;
}

/* The goal false once, an action not legal once, or, if there is a plan at all, a branch missing or leading back. */
static void put_defect(struct job *job, struct random *random)
{
    const unsigned state = job->states == 0 ? 0 : below(random, job->states);
    const unsigned result = mostly_largest(random, job->results), action = below(random, job->actions);
    const unsigned world = mostly_largest(random, job->worlds), column = below(random, columns_of(job));
    switch (below(random, job->states == 0 ? 2 : 4)) {
    case 0: job->goal[world][column] = 0; break;
    case 1: job->cells[action][world][column] = (struct cell){0, NONE}; break;
    case 2: job->target[state][result] = NONE; break;
    case 3: job->target[state][result] = (uint8_t)state; break;
    }
}

/* Many only where there is one lamp kind, and lines are few. */
static uint8_t last_end(struct random *random, uint8_t kinds)
{
    if (chance(random, 40))
        return 0;
    return (uint8_t)(kinds == 1 && chance(random, 30) ? mostly_largest(random, MOST_ENDS) : below(random, 4));
}

/* Two kinds only where S·W is at most 9: the lines of up to S·W + 1 lamps are to be tried one by one. */
static void choose_numbers(struct job *job, struct random *random)
{
    job->kinds = chance(random, 70) ? 2 : 1;
    job->last_end = last_end(random, job->kinds);
    job->worlds = 1 + mostly_largest(random, job->kinds == 2 ? 4 : 6);
    job->states = mostly_largest(random, job->kinds == 1 ? 5 : job->worlds == 4 ? 3 : 4);
    job->actions = 1 + mostly_largest(random, 3);
    job->results = 1 + mostly_largest(random, 3);
    job->first = (uint8_t)(chance(random, 85) ? 0 : below(random, job->states + 1u));
    for (unsigned part = 0; part <= PARTS; part++)
        job->gap[part] = (uint16_t)below(random, 3);
}

/* Plans of right_job are those that tell end kinds apart. */
void small_job(struct job *job, struct random *random)
{
    choose_numbers(job, random);
    if (job->actions > 1 && job->results > 1 && job->states > 1 && chance(random, 30))
        right_job(job, random);
    else
        make_tidy(job, random);
    choose_starts(job, random);
    for (unsigned defects = below(random, 4); defects > 0; defects--)
        put_defect(job, random);
}
