#include "repair.h"

#include "job_files/families.h"

/* ---- Bytes, one after another ---- */

struct source {
    const uint8_t *next, *end;
    struct random *random; /* of what is lacking */
};

static uint8_t take(struct source *from)
{
    return from->next < from->end ? *from->next++ : (uint8_t)random_word(from->random);
}

/* ---- Ranges ---- */

/* A number that is out of its range becomes one of the least four, as far as there are so many. */
static uint8_t in_range(uint8_t number, uint8_t least, uint8_t most)
{
    const uint8_t few = most - least < 3 ? most : (uint8_t)(least + 3);
    return number >= least && number <= most ? number : (uint8_t)(least + number % (few - least + 1));
}

static uint8_t below_count(uint8_t number, uint32_t count) { return (uint8_t)(number % count); }

/* A number below the count, or NONE, which the highest are, too. */
static uint8_t below_or_none(uint8_t number, uint32_t count)
{
    return number < count ? number : number >= 240 ? NONE : below_count(number, count);
}

/* A mark: what is none is 1 in one of so many. */
static uint8_t mark_from(uint8_t number, uint32_t rarity) { return number > 1 ? number % rarity == 0 : number; }

/* ---- Jobs ---- */

enum { NUMBERS = 8, PAIRS = 20 }; /* bytes of a job file before its parts */

enum { MANY_CELLS = 2048 }; /* at least two actions stay, whatever W, E and C are */

static uint32_t cells_of(const struct job *job) { return (uint32_t)job->actions * job->worlds * columns_of(job); }

static void take_numbers(struct job *job, struct source *from)
{
    uint8_t numbers[NUMBERS];
    for (int i = 0; i < NUMBERS; i++)
        numbers[i] = take(from);
    job->actions = in_range(numbers[0], 1, MOST_ACTIONS);
    job->worlds = in_range(numbers[1], 1, MOST_WORLDS);
    job->kinds = in_range(numbers[2], 1, MOST_KINDS);
    job->results = in_range(numbers[3], 1, MOST_RESULTS);
    job->states = in_range(numbers[4], 0, MOST_STATES);
    job->first = in_range(numbers[5], 0, job->states);
    job->last_end = in_range(numbers[6], 0, (uint8_t)(MOST_KINDS - job->kinds));
    if (cells_of(job) > MANY_CELLS)
        job->actions = (uint8_t)(MANY_CELLS * job->actions / cells_of(job));
}

static struct cell take_cell(const struct job *job, int action, int column, struct source *from)
{
    const uint8_t next = take(from), result = below_or_none(take(from), job->results);
    const bool legal = result != NONE && column >= first_legal(job, (uint32_t)action);
    return legal ? (struct cell){below_count(next, job->worlds), result} : (struct cell){0, NONE};
}

static void take_cells(struct job *job, struct source *from)
{
    for (int action = 0; action < job->actions; action++)
        for (int world = 0; world < job->worlds; world++)
            for (int column = 0; column < columns_of(job); column++)
                job->cells[action][world][column] = take_cell(job, action, column, from);
}

/* At least one. */
static void take_starts(struct job *job, struct source *from)
{
    bool some = false;
    for (int world = 0; world < job->worlds; world++) {
        job->starts[world] = mark_from(take(from), 3);
        some = some || job->starts[world];
    }
    if (!some)
        job->starts[0] = 1;
}

/* Mostly true, so that a plan does not fail on the shortest lines alone. */
static void take_goal(struct job *job, struct source *from)
{
    for (int world = 0; world < job->worlds; world++)
        for (int column = 0; column < columns_of(job); column++) {
            const uint8_t number = take(from);
            job->goal[world][column] = number > 1 ? !mark_from(number, 8) : number;
        }
}

/* Some are the final state, so that plans come to their end. */
static uint8_t repaired_target(uint8_t target, uint8_t states)
{
    return target > 192 && target < 240 ? states : below_or_none(target, states + 1u);
}

static void take_plan(struct job *job, struct source *from)
{
    for (int state = 0; state < job->states; state++) {
        job->action[state] = below_count(take(from), job->actions);
        for (int result = 0; result < job->results; result++)
            job->target[state][result] = repaired_target(take(from), job->states);
    }
}

/* Seldom there are gaps, where the lower bits say so. */
static void set_gaps(struct job *job, uint8_t gaps)
{
    for (int part = 0; part <= PARTS; part++)
        job->gap[part] = gaps >= 192 ? gaps >> part & 1 : 0;
}

void repair_job(struct job *job, const struct arguments *with, const uint8_t *bytes, size_t size, struct random *random)
{
    struct source from = {bytes, bytes + size, random};
    take_numbers(job, &from);
    for (int i = 0; i < PAIRS; i++)
        take(&from);
    for (int action = 0; action < job->actions; action++)
        job->marks[action] = mark_from(take(&from), 2);
    take_cells(job, &from);
    take_starts(job, &from);
    take_goal(job, &from);
    take_plan(job, &from);
    set_gaps(job, with->gaps);
}

/* ---- Changed jobs ---- */

/* Each three bytes say a byte of the file that is replaced, and with what. */
static void change_file(struct file *file, const uint8_t *changes, size_t size)
{
    for (size_t at = 0; at + 3 <= size; at += 3)
        file->bytes[number_of(changes + at) % file->size] = changes[at + 2];
}

void change_family_job(struct job *job, const struct arguments *with, const uint8_t *bytes, size_t size, struct random *random)
{
    static struct file file;
    do
        random_job(job, random);
    while (cells_of(job) > MANY_CELLS);
    memset(job->gap, 0, sizeof job->gap);
    write_file(&file, job, random);
    change_file(&file, bytes, size);
    repair_job(job, with, file.bytes, file.size, random);
}

/* ---- Rules ---- */

/* Their product is W. */
static uint8_t take_counts(uint8_t counts[MOST_FLUENTS], uint32_t fluents, struct source *from)
{
    uint8_t product = 1;
    for (uint32_t fluent = 0; fluent < fluents; fluent++) {
        counts[fluent] = in_range(take(from), 1, (uint8_t)(MOST_WORLDS / product));
        product = (uint8_t)(product * counts[fluent]);
    }
    return product;
}

static struct fill_numbers repaired_numbers(const struct arguments *with, uint8_t worlds)
{
    const uint8_t kinds = in_range(with->kinds, 1, MOST_KINDS);
    return (struct fill_numbers){.actions = in_range(with->actions, 1, MOST_ACTIONS), .worlds = worlds, .kinds = kinds,
                                 .results = in_range(with->results, 1, MOST_RESULTS),
                                 .end_kinds = in_range(with->end_kinds, 1, (uint8_t)(MOST_COLUMNS - kinds))};
}

static uint8_t repaired_column(uint8_t column, const struct rules *rules)
{
    return column >= ANY_LAMP ? column : below_count(column, (uint32_t)columns_with(rules->numbers));
}

static void take_values(uint8_t values[MOST_FLUENTS], const struct rules *rules, struct source *from)
{
    for (uint32_t fluent = 0; fluent < fluents_of(rules); fluent++)
        values[fluent] = below_or_none(take(from), count_of(rules, fluent));
}

static void take_rule(struct rules *rules, struct source *from)
{
    struct rule rule;
    rule.action = below_count(take(from), rules->numbers.actions);
    rule.result = below_count(take(from), rules->numbers.results);
    rule.column = repaired_column(take(from), rules);
    take_values(rule.wanted, rules, from);
    take_values(rule.given, rules, from);
    add_rule(rules, &rule);
}

static_assert((int)ANY_VALUE == NONE && (int)KEEP == NONE, "a value that is none is any, or is kept");

void repair_rules(struct rules *rules, const struct arguments *with, const uint8_t *bytes, size_t size, struct random *random)
{
    struct source from = {bytes, bytes + size, random};
    uint8_t counts[MOST_FLUENTS];
    const uint8_t fluents = in_range(take(&from), 1, MOST_FLUENTS), worlds = take_counts(counts, fluents, &from);
    begin_rules(rules, repaired_numbers(with, worlds), fluents, counts);
    while ((size_t)(from.end - from.next) >= rule_bytes(rules))
        take_rule(rules, &from);
}
