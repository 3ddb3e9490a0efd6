/*
 * Rules files (document 02, (e)), each with the numbers that a caller gives with it; rules for the cells of bench line G, for
 * those of the job of three end kinds, and for those of the samples' street.
 */
#ifndef OUTSIDE_RULES_FILES_H
#define OUTSIDE_RULES_FILES_H

#include "job_files.h"

enum { MOST_FLUENTS = 6 };

/* As a rule's column: that of any lamp, or any. As the value that it wants: any. As a new value: the one that there is. */
enum { ANY_LAMP = 254, ANY_COLUMN = 255, ANY_VALUE = 255, KEEP = 255 };

/* A rules file may have any size; there is room here for more than 65,535 rules of one fluent or two. */
enum { RULES_ROOM = 500000 };

/* A, W, C, R and E. */
struct fill_numbers {
    uint8_t actions, worlds, kinds, results, end_kinds;
};

struct rules {
    struct fill_numbers numbers;
    size_t size;
    uint8_t bytes[RULES_ROOM];
};

struct rule {
    uint8_t action, result, column;
    uint8_t wanted[MOST_FLUENTS], given[MOST_FLUENTS]; /* the value that it wants of each fluent, and the new one */
};

/* Where the fields of a rule are in its bytes. Its new values follow the wanted ones. */
enum { ACTION_AT, RESULT_AT, COLUMN_AT, WANTED_AT };

/* ---- Numbers ---- */

static inline size_t columns_with(struct fill_numbers numbers) { return (size_t)numbers.end_kinds + numbers.kinds; }

/* The bytes of the cells part, whatever the numbers are. */
static inline size_t part_bytes(struct fill_numbers numbers)
{
    return 2 * (size_t)numbers.actions * numbers.worlds * columns_with(numbers);
}

/* The place of a cell's two bytes in the part. */
static inline size_t cell_at(struct fill_numbers numbers, uint32_t action, uint32_t world, uint32_t column)
{
    return 2 * (((size_t)action * numbers.worlds + world) * columns_with(numbers) + column);
}

/* ---- The layout ---- */

static inline uint8_t fluents_of(const struct rules *rules) { return rules->bytes[0]; }
static inline uint8_t count_of(const struct rules *rules, uint32_t fluent) { return rules->bytes[1 + fluent]; }

/* The bytes before the first rule, and those of each rule. */
static inline size_t head_bytes(const struct rules *rules) { return 1u + fluents_of(rules); }
static inline size_t rule_bytes(const struct rules *rules) { return 3u + 2u * fluents_of(rules); }

static inline size_t rules_in(const struct rules *rules) { return (rules->size - head_bytes(rules)) / rule_bytes(rules); }

static inline uint8_t *rule_at(struct rules *rules, size_t which)
{
    return rules->bytes + head_bytes(rules) + which * rule_bytes(rules);
}

/* No rules yet: the caller's numbers, and the fluents with their counts. */
void begin_rules(struct rules *rules, struct fill_numbers numbers, uint32_t fluents, const uint8_t *counts);

/* A rule behind the others or before them, for which there is room. */
void add_rule(struct rules *rules, const struct rule *rule);
void put_rule_first(struct rules *rules, const struct rule *rule);

/* A copy of a rule, behind all others: the one before it decides whatever it could. There has to be room for it. */
void add_again(struct rules *rules, size_t which);

/* The fluents and their counts stay. */
void leave_out_rules(struct rules *rules);

/* A rule of this action and result that wants nothing in particular, at any column, and keeps every value. */
struct rule any_rule(uint8_t action, uint8_t result);

/* The fluents' values in a world state, the first fluent being the slowest. */
void values_in(const struct rules *rules, uint32_t world, uint8_t values[MOST_FLUENTS]);

/* ---- Known files ---- */

/*
 * The rules of bench line G and of the job of three end kinds have one fluent, which is the world state. Those of the street have
 * two, and are samples/street.rules.
 */
enum known_rules { RULES_OF_BENCH_G, RULES_OF_THREE_ENDS, RULES_OF_STREET, KNOWN_RULES };
void known_rules(struct rules *rules, enum known_rules which);

#endif
