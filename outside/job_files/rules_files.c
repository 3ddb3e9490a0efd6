/*
 * The layout of a rules file, and known ones.
 */
#include "rules_files.h"

/* ---- The layout ---- */

void begin_rules(struct rules *rules, struct fill_numbers numbers, uint32_t fluents, const uint8_t *counts)
{
    rules->numbers = numbers;
    rules->bytes[0] = (uint8_t)fluents;
    memcpy(rules->bytes + 1, counts, fluents);
    rules->size = 1 + fluents;
}

static void put_rule(const struct rules *rules, const struct rule *rule, uint8_t *to)
{
    const uint8_t fluents = fluents_of(rules);
    to[ACTION_AT] = rule->action;
    to[RESULT_AT] = rule->result;
    to[COLUMN_AT] = rule->column;
    memcpy(to + WANTED_AT, rule->wanted, fluents);
    memcpy(to + WANTED_AT + fluents, rule->given, fluents);
}

void add_rule(struct rules *rules, const struct rule *rule)
{
    put_rule(rules, rule, rules->bytes + rules->size);
    rules->size += rule_bytes(rules);
}

void put_rule_first(struct rules *rules, const struct rule *rule)
{
    uint8_t *first = rule_at(rules, 0);
    memmove(first + rule_bytes(rules), first, rules->size - head_bytes(rules));
    put_rule(rules, rule, first);
    rules->size += rule_bytes(rules);
}

void add_again(struct rules *rules, size_t which)
{
    memcpy(rules->bytes + rules->size, rule_at(rules, which), rule_bytes(rules));
    rules->size += rule_bytes(rules);
}

void leave_out_rules(struct rules *rules) { rules->size = head_bytes(rules); }

struct rule any_rule(uint8_t action, uint8_t result)
{
    struct rule rule = {.action = action, .result = result, .column = ANY_COLUMN};
    memset(rule.wanted, ANY_VALUE, sizeof rule.wanted);
    memset(rule.given, KEEP, sizeof rule.given);
    return rule;
}

void values_in(const struct rules *rules, uint32_t world, uint8_t values[MOST_FLUENTS])
{
    uint32_t slower = rules->numbers.worlds;
    for (uint32_t fluent = 0; fluent < fluents_of(rules); fluent++) {
        slower /= count_of(rules, fluent); /* now the world states for which this fluent and those before it stay as they are */
        values[fluent] = (uint8_t)(world / slower);
        world %= slower;
    }
}

/* ---- Known files ---- */

static void add_bytes(struct rules *rules, const uint8_t *bytes, size_t size)
{
    memcpy(rules->bytes + rules->size, bytes, size);
    rules->size += size;
}

/* Action, result, column, wanted world state, next one. Where no rule is, the action is not legal. */
static const uint8_t bench_g[][5] = {
    {0, 0, 0, ANY_VALUE, KEEP}, {0, 1, ANY_LAMP, ANY_VALUE, KEEP},                   /* peek */
    {1, 0, 1, ANY_VALUE, KEEP}, {1, 1, 2, ANY_VALUE, KEEP},                          /* test */
    {2, 0, 1, 0, 0},            {2, 0, 2, 1, 0}, {2, 0, ANY_LAMP, ANY_VALUE, 2},     /* next */
    {3, 0, ANY_LAMP, 0, 1},     {3, 0, ANY_LAMP, 2, KEEP},                           /* flag */
};

static const uint8_t three_ends[][5] = {
    {0, 3, ANY_LAMP, ANY_VALUE, KEEP}, {0, 2, FUSE_BOX, ANY_VALUE, KEEP},            /* look */
    {0, 1, JOINT_BOX, ANY_VALUE, KEEP}, {0, 0, ANY_COLUMN, ANY_VALUE, KEEP},         /* look, on */
    {1, 0, ANY_LAMP, ANY_VALUE, KEEP},                                               /* next */
    {2, 0, JOINT_BOX, 0, 1},                                                         /* seal */
    {3, 0, FUSE_BOX, 0, 2},                                                          /* set the fuse */
};

/* Action, result, column, what is wanted of two fluents, what they get: a lamp was left dark; this one has a new fuse. */
static const uint8_t street[][7] = {
    {0, 0, 0, ANY_VALUE, ANY_VALUE, KEEP, KEEP},                                     /* look, at the line's end */
    {0, 1, 1, ANY_VALUE, ANY_VALUE, KEEP, KEEP},                                     /* look, at a lit lamp */
    {0, 2, 2, ANY_VALUE, ANY_VALUE, KEEP, KEEP},                                     /* look, at a dark lamp */
    {1, 0, 2, ANY_VALUE, 0, KEEP, 1},                                                /* fit a fuse */
    {2, 0, 1, ANY_VALUE, ANY_VALUE, KEEP, 0},                                        /* next, past a lit lamp */
    {2, 0, 2, ANY_VALUE, 1, KEEP, 0},                                                /* next, past one with a new fuse */
    {2, 0, ANY_LAMP, ANY_VALUE, ANY_VALUE, 1, 0},                                    /* next, past any other */
};

void known_rules(struct rules *rules, enum known_rules which)
{
    switch (which) {
    case RULES_OF_BENCH_G:
        begin_rules(rules, (struct fill_numbers){4, 3, 2, 2, 1}, 1, (const uint8_t[]){3});
        add_bytes(rules, &bench_g[0][0], sizeof bench_g);
        break;
    case RULES_OF_THREE_ENDS:
        begin_rules(rules, (struct fill_numbers){4, 3, 2, 4, 3}, 1, (const uint8_t[]){3});
        add_bytes(rules, &three_ends[0][0], sizeof three_ends);
        break;
    default:
        begin_rules(rules, (struct fill_numbers){3, 4, 2, 3, 1}, 2, (const uint8_t[]){2, 2});
        add_bytes(rules, &street[0][0], sizeof street);
        break;
    }
}
