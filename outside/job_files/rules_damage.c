/*
 * Defects of rules files that are refused with 22, each in several forms.
 */
#include "rules_damage.h"

uint8_t *fill_number(struct rules *rules, uint32_t which)
{
    uint8_t *const numbers[FILL_NUMBERS] = {&rules->numbers.actions, &rules->numbers.worlds, &rules->numbers.kinds,
                                            &rules->numbers.results, &rules->numbers.end_kinds};
    return numbers[which];
}

/* From the least to the most: either of them often. */
static uint8_t between(struct random *random, uint32_t least, uint32_t most)
{
    switch (below(random, 4)) {
    case 0: return (uint8_t)least;
    case 1: return (uint8_t)most;
    default: return (uint8_t)(least + below(random, most - least + 1));
    }
}

/* One that matches everything, with any number of fluents: any column, any value and a kept value are the same byte. */
static void add_matching_rule(struct rules *rules)
{
    uint8_t *rule = rules->bytes + rules->size;
    memset(rule, ANY_VALUE, rule_bytes(rules));
    rule[ACTION_AT] = rule[RESULT_AT] = 0;
    rules->size += rule_bytes(rules);
}

/* Rules that match everything, or none: so whatever the counts are, no rule has a value out of range. */
static void put_matching_rules(struct rules *rules, struct random *random)
{
    leave_out_rules(rules);
    for (uint32_t more = below(random, 3); more > 0; more--)
        add_matching_rule(rules);
}

/* ---- The fluents ---- */

/* All values in one fluent of so many; without a fluent there is one world state. */
static void put_fluents(struct rules *rules, struct random *random, uint32_t fluents)
{
    uint8_t counts[255];
    memset(counts, 1, sizeof counts);
    if (fluents == 0)
        rules->numbers.worlds = 1;
    else
        counts[below(random, fluents)] = rules->numbers.worlds;
    begin_rules(rules, rules->numbers, fluents, counts);
    put_matching_rules(rules, random);
}

static void wrong_fluents(struct rules *rules, struct random *random)
{
    put_fluents(rules, random, one_in(random, 3) ? 0 : between(random, MOST_FLUENTS + 1, 255));
}

/* ---- The product ---- */

static uint64_t product_of(const struct rules *rules)
{
    uint64_t product = 1;
    for (uint32_t fluent = 0; fluent < fluents_of(rules); fluent++)
        product *= count_of(rules, fluent);
    return product;
}

static void other_worlds(struct rules *rules, struct random *random)
{
    const uint32_t before = rules->numbers.worlds, other = 1 + another_below(random, MOST_WORLDS, before - 1);
    const bool next = before < MOST_WORLDS && one_in(random, 3);
    rules->numbers.worlds = (uint8_t)(next ? before + 1 : other);
}

static void other_count(struct rules *rules, struct random *random)
{
    uint8_t *count = &rules->bytes[1 + below(random, fluents_of(rules))], other = *count;
    while (other == *count)
        other = one_in(random, 2) ? (uint8_t)(*count + 1) : (uint8_t)below(random, *count + 1u);
    *count = other;
    put_matching_rules(rules, random);
}

/* A count of 0 where there was 1, as if the fluent were not there. */
static void no_values(struct rules *rules, struct random *random)
{
    uint32_t fluents = 1 + below(random, MOST_FLUENTS);
    put_fluents(rules, random, fluents);
    for (uint32_t fluent = 0; fluent < fluents; fluent++)
        if (count_of(rules, fluent) == 1)
            rules->bytes[1 + fluent] = 0;
    if (fluents == 1)
        rules->bytes[1] = 0;
}

/* Counts whose product is the number of world states in its lowest 8 bits, and not in the others. */
static void wrap_8_bits(struct rules *rules, struct random *random)
{
    const uint8_t fluents = (uint8_t)(2 + below(random, MOST_FLUENTS - 1));
    uint8_t counts[MOST_FLUENTS];
    do {
        uint8_t product = 1, last = 1;
        for (uint32_t fluent = 1; fluent < fluents; fluent++) {
            counts[fluent] = (uint8_t)(2 * below(random, 128) + 1); /* odd, so that there is a right last one */
            product = (uint8_t)(product * counts[fluent]);
        }
        while ((uint8_t)(product * last) != rules->numbers.worlds)
            last++;
        counts[0] = last;
        begin_rules(rules, rules->numbers, fluents, counts);
    } while (product_of(rules) == rules->numbers.worlds);
}

/* The same with the lowest 16 and 32 bits. */
static void wrap_more_bits(struct rules *rules, struct random *random)
{
    const struct {
        uint8_t worlds, fluents, counts[MOST_FLUENTS];
    } wrapping[] = {
        {1, 3, {13, 109, 185}},
        {60, 3, {23, 31, 92}},
        {64, 3, {2, 160, 205}},
        {48, 4, {143, 108, 111, 228}},
        {62, 5, {209, 121, 194, 181, 75}},
        {16, 6, {82, 231, 71, 211, 179, 8}},
        {64, 6, {3, 149, 223, 237, 176, 188}}, /* from here on in 32 */
        {60, 6, {77, 163, 191, 209, 188, 217}},
        {48, 6, {93, 139, 139, 235, 236, 252}},
    };
    const uint32_t which = below(random, sizeof wrapping / sizeof *wrapping);
    rules->numbers.worlds = wrapping[which].worlds;
    begin_rules(rules, rules->numbers, wrapping[which].fluents, wrapping[which].counts);
}

static void wrong_product(struct rules *rules, struct random *random)
{
    switch (below(random, 5)) {
    case 0: other_worlds(rules, random); break;
    case 1: other_count(rules, random); break;
    case 2: no_values(rules, random); break;
    case 3:
        wrap_8_bits(rules, random);
        put_matching_rules(rules, random);
        break;
    default:
        wrap_more_bits(rules, random);
        put_matching_rules(rules, random);
        break;
    }
}

/* ---- The caller's numbers ---- */

/* With counts that multiply to it. */
static void wrong_worlds(struct rules *rules, struct random *random)
{
    rules->numbers.worlds = one_in(random, 3) ? 0 : between(random, MOST_WORLDS + 1, 255);
    put_fluents(rules, random, 1 + below(random, MOST_FLUENTS));
}

/* Too many kinds of lamps, or of ends, beside those of the other. */
static void wrong_columns(struct rules *rules, struct random *random)
{
    struct fill_numbers *numbers = &rules->numbers;
    switch (below(random, 4)) {
    case 0: numbers->kinds = 0; break;
    case 1: numbers->end_kinds = 0; break;
    case 2: numbers->kinds = between(random, MOST_COLUMNS + 1u - numbers->end_kinds, 255); break;
    default: numbers->end_kinds = between(random, MOST_COLUMNS + 1u - numbers->kinds, 255); break;
    }
}

static void wrong_number(struct rules *rules, struct random *random)
{
    const bool none = one_in(random, 3);
    switch (below(random, 5)) {
    case 0: rules->numbers.actions = none ? 0 : between(random, MOST_ACTIONS + 1, 255); break;
    case 1: rules->numbers.results = none ? 0 : between(random, MOST_RESULTS + 1, 255); break;
    case 2: wrong_worlds(rules, random); break;
    default: wrong_columns(rules, random); break;
    }
    if (one_in(random, 2))
        leave_out_rules(rules); /* which may be out of range now */
}

/* ---- The length ---- */

static void wrong_length(struct rules *rules, struct random *random)
{
    const uint32_t part_of_rule = 1 + below(random, (uint32_t)rule_bytes(rules) - 1);
    if (one_in(random, 3)) {
        rules->size = below(random, (uint32_t)head_bytes(rules));
    } else if (rules_in(rules) > 0 && one_in(random, 2)) {
        rules->size -= part_of_rule;
    } else {
        memset(rules->bytes + rules->size, one_in(random, 2) ? 0 : ANY_VALUE, part_of_rule);
        rules->size += part_of_rule;
    }
}

/* ---- A rule's values ---- */

/* The least byte that is out of range at this place of a rule, and the highest. */
static void out_of_range(const struct rules *rules, size_t at, uint32_t *least, uint32_t *most)
{
    *most = at >= WANTED_AT ? ANY_VALUE - 1 : at == COLUMN_AT ? ANY_LAMP - 1 : 255;
    switch (at) {
    case ACTION_AT: *least = rules->numbers.actions; break;
    case RESULT_AT: *least = rules->numbers.results; break;
    case COLUMN_AT: *least = (uint32_t)columns_with(rules->numbers); break;
    default: *least = count_of(rules, (uint32_t)(at - WANTED_AT) % fluents_of(rules)); break;
    }
}

static void wrong_value(struct rules *rules, struct random *random)
{
    if (rules_in(rules) == 0)
        add_matching_rule(rules);
    if (one_in(random, 2))
        add_again(rules, below(random, (uint32_t)rules_in(rules)));
    const uint32_t last = (uint32_t)rules_in(rules) - 1, which = one_in(random, 3) ? below(random, last + 1) : last;
    const uint32_t in_front = below(random, WANTED_AT), any = below(random, (uint32_t)rule_bytes(rules));
    const size_t at = one_in(random, 2) ? in_front : any;
    uint32_t least, most;
    out_of_range(rules, at, &least, &most);
    rule_at(rules, which)[at] = between(random, least, most);
}

/* ---- Any defect ---- */

void damage_rules(struct rules *rules, struct random *random)
{
    switch (below(random, 8)) {
    case 0: wrong_fluents(rules, random); break;
    case 1: wrong_product(rules, random); break;
    case 2: wrong_number(rules, random); break;
    case 3: wrong_length(rules, random); break;
    default: wrong_value(rules, random); break;
    }
}

void scramble_rules(struct rules *rules, struct random *random)
{
    const uint32_t at = below(random, (uint32_t)rules->size + FILL_NUMBERS);
    uint8_t *byte = at < rules->size ? &rules->bytes[at] : fill_number(rules, at - (uint32_t)rules->size);
    *byte = one_in(random, 2) ? (uint8_t)random_word(random) : (uint8_t)(*byte + 2 * below(random, 2) - 1);
}
