/*
 * Random rules files, and those that say the cells of a job.
 */
#include "random_rules.h"

/* ---- Numbers and fluents ---- */

/* The fluents' counts, which multiply to the number of world states; many are 1 where it has few factors. */
static void choose_counts(struct random *random, uint32_t worlds, uint32_t fluents, uint8_t counts[MOST_FLUENTS])
{
    memset(counts, 1, MOST_FLUENTS);
    for (uint32_t factor = 2; worlds > 1; factor++)
        for (; worlds % factor == 0; worlds /= factor) {
            uint8_t *count = &counts[below(random, fluents)];
            *count = (uint8_t)(*count * factor);
        }
}

/* Numbers of world states with many factors, so that several fluents have more than one value. */
static uint8_t choose_worlds(struct random *random)
{
    const uint8_t with_factors[] = {64, 60, 48, 36, 32, 30, 24, 16, 12, 8, 6, 4};
    return one_in(random, 2) ? with_factors[below(random, sizeof with_factors)] : mostly_small(random, 1, MOST_WORLDS);
}

static struct fill_numbers choose_numbers(struct random *random)
{
    struct fill_numbers numbers;
    numbers.actions = mostly_small(random, 1, MOST_ACTIONS);
    numbers.worlds = choose_worlds(random);
    numbers.kinds = mostly_small(random, 1, MOST_KINDS);
    numbers.results = mostly_small(random, 1, MOST_RESULTS);
    numbers.end_kinds = mostly_small(random, 1, (uint8_t)(MOST_COLUMNS - numbers.kinds));
    return numbers;
}

static struct fill_numbers numbers_of_longest_part(struct random *random)
{
    const uint8_t end_kinds = (uint8_t)(1 + below(random, MOST_ENDS));
    return (struct fill_numbers){MOST_ACTIONS, MOST_WORLDS, (uint8_t)(MOST_COLUMNS - end_kinds), MOST_RESULTS, end_kinds};
}

static struct fill_numbers few_cells(struct random *random)
{
    struct fill_numbers numbers;
    numbers.actions = (uint8_t)(2 + below(random, 2));
    numbers.worlds = (uint8_t)(1 + below(random, 8));
    numbers.kinds = (uint8_t)(1 + below(random, 3));
    numbers.results = (uint8_t)(1 + below(random, 3));
    numbers.end_kinds = (uint8_t)(1 + below(random, 3));
    return numbers;
}

static void begin_any(struct rules *rules, struct fill_numbers numbers, uint32_t most_fluents, struct random *random)
{
    uint8_t counts[MOST_FLUENTS];
    const uint32_t fluents = 1 + below(random, most_fluents);
    choose_counts(random, numbers.worlds, fluents, counts);
    begin_rules(rules, numbers, fluents, counts);
}

/* ---- Rules ---- */

static uint8_t choose_column(const struct rules *rules, struct random *random)
{
    switch (below(random, 4)) {
    case 0: return ANY_LAMP;
    case 1: return ANY_COLUMN;
    default: return (uint8_t)below(random, (uint32_t)columns_with(rules->numbers));
    }
}

/* Of four fluents this many, on average, are wanted at any value or kept. Both are the same byte. */
static void choose_values(const struct rules *rules, struct random *random, uint32_t of_four, uint8_t values[MOST_FLUENTS])
{
    for (uint32_t fluent = 0; fluent < fluents_of(rules); fluent++)
        values[fluent] = below(random, 4) < of_four ? ANY_VALUE : (uint8_t)below(random, count_of(rules, fluent));
}

/* A rule about an action that is not below `first`. */
static void add_any_rule(struct rules *rules, struct random *random, uint32_t first, uint32_t of_four)
{
    struct rule rule;
    rule.action = (uint8_t)(first + below(random, rules->numbers.actions - first));
    rule.result = (uint8_t)below(random, rules->numbers.results);
    rule.column = choose_column(rules, random);
    choose_values(rules, random, of_four, rule.wanted);
    choose_values(rules, random, 2, rule.given);
    add_rule(rules, &rule);
}

static void add_any_rules(struct rules *rules, struct random *random, size_t count, uint32_t first)
{
    const uint32_t of_four = below(random, 5);
    for (; count > 0; count--)
        add_any_rule(rules, random, first, of_four);
}

static size_t choose_count(struct random *random)
{
    switch (below(random, 16)) {
    case 0: return 0;
    case 1: return below(random, 150);
    case 2:
    case 3: return below(random, 60);
    default: return below(random, 10);
    }
}

void random_rules(struct rules *rules, struct random *random)
{
    const bool largest = one_in(random, 100);
    begin_any(rules, largest ? numbers_of_longest_part(random) : choose_numbers(random), MOST_FLUENTS, random);
    add_any_rules(rules, random, choose_count(random), 0);
}

void small_rules(struct rules *rules, struct random *random)
{
    begin_any(rules, few_cells(random), MOST_FLUENTS, random);
    add_any_rules(rules, random, below(random, 12), 0);
}

/* About as many rules, or bytes, as a number of 16 bits can say, or some more bytes. */
void long_rules(struct rules *rules, struct random *random)
{
    const bool many_rules = one_in(random, 6);
    begin_any(rules, few_cells(random), many_rules ? 2 : MOST_FLUENTS, random);
    const size_t bytes = UINT16_MAX + (one_in(random, 2) ? 0 : below(random, 30000)), more = below(random, 3);
    add_any_rules(rules, random, (many_rules ? UINT16_MAX : bytes / rule_bytes(rules)) + more, 1);
}

/* ---- The cells of a job ---- */

/* A wanted value may be left open where the fluent has only one, and a new one where it is what there is. */
static void add_rule_of_cell(struct rules *rules, struct random *random, uint32_t world, uint32_t next, struct rule rule)
{
    values_in(rules, world, rule.wanted);
    values_in(rules, next, rule.given);
    for (uint32_t fluent = 0; fluent < fluents_of(rules); fluent++) {
        if (rule.given[fluent] == rule.wanted[fluent] && one_in(random, 2))
            rule.given[fluent] = KEEP;
        if (count_of(rules, fluent) == 1 && one_in(random, 2))
            rule.wanted[fluent] = ANY_VALUE;
    }
    add_rule(rules, &rule);
}

static void shuffle(struct rules *rules, struct random *random)
{
    uint8_t one[3 + 2 * MOST_FLUENTS];
    const size_t bytes = rule_bytes(rules);
    for (size_t left = rules_in(rules); left > 1; left--) {
        uint8_t *last = rule_at(rules, left - 1), *other = rule_at(rules, below(random, (uint32_t)left));
        memcpy(one, last, bytes);
        memmove(last, other, bytes);
        memcpy(other, one, bytes);
    }
}

void rules_of_cells(struct rules *rules, const struct job *job, struct random *random)
{
    begin_any(rules, (struct fill_numbers){job->actions, job->worlds, job->kinds, job->results, ends_of(job)}, MOST_FLUENTS,
              random);
    for (uint8_t action = 0; action < job->actions; action++)
        for (uint8_t world = 0; world < job->worlds; world++)
            for (uint8_t column = 0; column < columns_of(job); column++) {
                const struct cell cell = job->cells[action][world][column];
                if (cell.result != NONE)
                    add_rule_of_cell(rules, random, world, cell.next, (struct rule){action, cell.result, column, {0}, {0}});
            }
    shuffle(rules, random);
}

/* ---- By what they cost ---- */

static void add_particular_rule(struct rules *rules, struct random *random, uint8_t action)
{
    struct rule rule = any_rule(action, (uint8_t)below(random, rules->numbers.results));
    rule.column = (uint8_t)below(random, (uint32_t)columns_with(rules->numbers));
    choose_values(rules, random, 0, rule.wanted);
    choose_values(rules, random, 0, rule.given);
    add_rule(rules, &rule);
}

void sized_rules(struct rules *rules, struct fill_numbers numbers, uint32_t fluents, size_t count, bool particular)
{
    uint8_t counts[MOST_FLUENTS];
    struct random random = {fluents};
    choose_counts(&random, numbers.worlds, fluents, counts);
    begin_rules(rules, numbers, fluents, counts);
    for (size_t i = 0; i < count; i++) {
        const uint8_t action = (uint8_t)(i % numbers.actions);
        const struct rule any = any_rule(action, (uint8_t)(i % numbers.results));
        if (particular)
            add_particular_rule(rules, &random, action);
        else
            add_rule(rules, &any);
    }
}
