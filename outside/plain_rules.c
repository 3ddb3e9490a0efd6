/*
 * The cells part from a rules file (02, (e)). It is filled cell by cell: the first rule that matches decides, and where none does
 * the action is not legal.
 *
 * "02" in the comments is document 02, followed by the request that is rendered.
 */
#include "plain.h"
#include "plain_job.h"

enum { MOST_FLUENTS = 6 };

/* As a rule's column; as the value that it wants of a fluent; as the one that the fluent gets. */
enum { ANY_LAMP = 254, ANY_COLUMN = 255, ANY_VALUE = 255, KEPT_VALUE = 255 };

/* The caller's numbers, and the rules file, which stays in its bytes. */
struct rules {
    unsigned actions, worlds, kinds, results;  /* A, W, C and R */
    unsigned end_kinds, columns;               /* E, and E + C */
    unsigned fluents;                          /* m */
    const uint8_t *counts;                     /* the fluents' value counts */
    const uint8_t *first, *end;                /* the first rule, and the end of the file */
    size_t rule_bytes;
};

/* ---- A rule: action, result, column, a wanted value for each fluent, a new value for each fluent ---- */

static const uint8_t *wanted_by(const uint8_t *rule)
{
    return rule + 3;
}

static const uint8_t *new_by(const struct rules *rules, const uint8_t *rule)
{
    return rule + 3 + rules->fluents;
}

/* ---- Refusals (02, (e): 22 and 23) ---- */

/* The ranges of the job file (01, Job file; 02, (c)). */
static bool caller_numbers_in_range(const struct rules *rules)
{
    return within(rules->actions, 1, 16) && within(rules->worlds, 1, 64) && within(rules->kinds, 1, 15)
        && within(rules->results, 1, 8) && rules->end_kinds >= 1 && rules->columns <= MOST_COLUMNS;
}

/* Six counts of a byte each multiply to less than 2 to the power 48. */
static bool product_right(const struct rules *rules)
{
    uint64_t product = 1;
    for (unsigned fluent = 0; fluent < rules->fluents; fluent++)
        product *= rules->counts[fluent];
    return product == rules->worlds;
}

static bool column_in_range(const struct rules *rules, unsigned column)
{
    return column < rules->columns || column == ANY_LAMP || column == ANY_COLUMN;
}

static bool rule_in_range(const struct rules *rules, const uint8_t *rule)
{
    if (rule[0] >= rules->actions || rule[1] >= rules->results || !column_in_range(rules, rule[2]))
        return false;
    for (unsigned fluent = 0; fluent < rules->fluents; fluent++) {
        const unsigned wanted = wanted_by(rule)[fluent], given = new_by(rules, rule)[fluent], count = rules->counts[fluent];
        if ((wanted >= count && wanted != ANY_VALUE) || (given >= count && given != KEPT_VALUE))
            return false;
    }
    return true;
}

static bool rules_in_range(const struct rules *rules)
{
    for (const uint8_t *rule = rules->first; rule < rules->end; rule += rules->rule_bytes)
        if (!rule_in_range(rules, rule))
            return false;
    return true;
}

/* 22: whether the file is a rules file for the caller's numbers, which are in `rules` already; then the rest of it is too. */
static bool read_rules(const uint8_t *file, size_t file_size, struct rules *rules)
{
    if (file_size == 0 || !within(file[0], 1, MOST_FLUENTS) || file_size < 1u + file[0])
        return false;
    rules->fluents = file[0];
    rules->counts = file + 1;
    rules->first = file + 1 + rules->fluents;
    rules->end = file + file_size;
    rules->rule_bytes = 3 + 2 * rules->fluents;
    return product_right(rules) && (size_t)(rules->end - rules->first) % rules->rule_bytes == 0 && rules_in_range(rules);
}

/* 2·A·W·(E+C) (01, Job file; 02, (c)). */
static size_t cells_bytes(const struct rules *rules)
{
    return (size_t)2 * rules->actions * rules->worlds * rules->columns;
}

/* ---- Filling (02, (e)) ---- */

/* The value of each fluent in a world state. The first fluent is the slowest, so the last changes from each to the next. */
static void take_apart(const struct rules *rules, world_state world, unsigned values[MOST_FLUENTS])
{
    unsigned rest = world.number;
    for (unsigned fluent = rules->fluents; fluent-- > 0; rest /= rules->counts[fluent])
        values[fluent] = rest % rules->counts[fluent];
}

static bool column_matches(const struct rules *rules, unsigned named, unsigned column)
{
    return named == column || named == ANY_COLUMN || (named == ANY_LAMP && column >= rules->end_kinds);
}

static bool values_match(const struct rules *rules, const uint8_t *wanted, const unsigned values[MOST_FLUENTS])
{
    for (unsigned fluent = 0; fluent < rules->fluents; fluent++)
        if (wanted[fluent] != values[fluent] && wanted[fluent] != ANY_VALUE)
            return false;
    return true;
}

/* The first rule that matches, or NULL. */
static const uint8_t *deciding_rule(const struct rules *rules, unsigned action, const unsigned values[MOST_FLUENTS],
                                    unsigned column)
{
    for (const uint8_t *rule = rules->first; rule < rules->end; rule += rules->rule_bytes)
        if (rule[0] == action && column_matches(rules, rule[2], column) && values_match(rules, wanted_by(rule), values))
            return rule;
    return NULL;
}

/* The world state after a rule, put together from the fluents' values. */
static world_state world_after(const struct rules *rules, const uint8_t *rule, const unsigned values[MOST_FLUENTS])
{
    const uint8_t *const given = new_by(rules, rule);
    unsigned number = 0;
    for (unsigned fluent = 0; fluent < rules->fluents; fluent++)
        number = number * rules->counts[fluent] + (given[fluent] == KEPT_VALUE ? values[fluent] : given[fluent]);
    return (world_state){number};
}

static void fill_cell(const struct rules *rules, unsigned action, const unsigned values[MOST_FLUENTS], unsigned column,
                      uint8_t *cell)
{
    const uint8_t *const rule = deciding_rule(rules, action, values, column);
    cell[0] = rule == NULL ? 0 : (uint8_t)world_after(rules, rule, values).number;
    cell[1] = rule == NULL ? NONE : rule[1];
}

/* Cells lie by action, world state and column (01, Job file, part 2), so that each is behind the one before. */
static void fill(const struct rules *rules, uint8_t *part)
{
    unsigned values[MOST_FLUENTS];
    for (unsigned action = 0; action < rules->actions; action++)
        for (world_state world = {0}; world.number < rules->worlds; world.number++) {
            take_apart(rules, world, values);
            for (unsigned column = 0; column < rules->columns; column++, part += 2)
                fill_cell(rules, action, values, column, part);
        }
}

uint64_t plain_fill_cells(const uint8_t *rules, size_t rules_size, uint8_t actions, uint8_t worlds, uint8_t kinds,
                          uint8_t results, uint8_t end_kinds, uint8_t *part, size_t part_size)
{
    struct rules read = {.actions = actions, .worlds = worlds, .kinds = kinds, .results = results,
                         .end_kinds = end_kinds, .columns = (unsigned)end_kinds + kinds};
    if (!caller_numbers_in_range(&read) || !read_rules(rules, rules_size, &read))
        return refused(NESSFLURRY_REFUSED_RULES);
    if (part_size != cells_bytes(&read))
        return refused(NESSFLURRY_REFUSED_PART_SIZE);
    fill(&read, part);
    return answered(NESSFLURRY_DONE, 0, 0, 0);
}
