#include "brute_rules.h"

/* The fluents' values in the world state at hand. */
struct values {
    uint8_t of[MOST_FLUENTS];
};

/* Counts up, the last fluent first; false after the last world state, where all are 0 again. */
static bool next_values(const struct rules *rules, struct values *values)
{
    for (uint32_t fluent = fluents_of(rules); fluent > 0; fluent--) {
        if (++values->of[fluent - 1] < count_of(rules, fluent - 1))
            return true;
        values->of[fluent - 1] = 0;
    }
    return false;
}

/* How often one counts up from the first world state to come to these values. */
static uint8_t world_with(const struct rules *rules, struct values wanted)
{
    struct values values = {{0}};
    uint8_t world = 0;
    for (; memcmp(&values, &wanted, sizeof values) != 0; world++)
        next_values(rules, &values);
    return world;
}

static bool wants(const struct rules *rules, const uint8_t *rule, struct values values)
{
    for (uint32_t fluent = 0; fluent < fluents_of(rules); fluent++)
        if (rule[WANTED_AT + fluent] != ANY_VALUE && rule[WANTED_AT + fluent] != values.of[fluent])
            return false;
    return true;
}

static struct values changed(const struct rules *rules, const uint8_t *rule, struct values values)
{
    const uint8_t *const given = rule + WANTED_AT + fluents_of(rules);
    for (uint32_t fluent = 0; fluent < fluents_of(rules); fluent++)
        if (given[fluent] != KEEP)
            values.of[fluent] = given[fluent];
    return values;
}

/* The columns of a rule: from one on, and so many. */
static void columns_of_rule(const struct rules *rules, uint8_t column, size_t *from, size_t *count)
{
    *from = column == ANY_COLUMN ? 0 : column == ANY_LAMP ? rules->numbers.end_kinds : column;
    *count = column == ANY_COLUMN ? columns_with(rules->numbers) : column == ANY_LAMP ? rules->numbers.kinds : 1;
}

static void write_rule(const struct rules *rules, const uint8_t *rule, uint8_t *part)
{
    struct values values = {{0}};
    uint32_t world = 0;
    size_t from, count;
    columns_of_rule(rules, rule[COLUMN_AT], &from, &count);
    do {
        if (wants(rules, rule, values))
            for (size_t column = from; column < from + count; column++) {
                uint8_t *const cell = &part[cell_at(rules->numbers, rule[ACTION_AT], world, (uint32_t)column)];
                cell[0] = world_with(rules, changed(rules, rule, values));
                cell[1] = rule[RESULT_AT];
            }
        world++;
    } while (next_values(rules, &values));
}

void brute_fill(const struct rules *rules, uint8_t *part)
{
    const uint8_t *const first = rules->bytes + head_bytes(rules), *rule = rules->bytes + rules->size;
    for (size_t at = 0; at < part_bytes(rules->numbers); at += 2) {
        part[at] = 0;
        part[at + 1] = NONE;
    }
    while (rule > first) {
        rule -= rule_bytes(rules);
        write_rule(rules, rule, part);
    }
}
