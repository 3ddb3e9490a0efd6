/*
 * Rules files that are gone through (02, (e)): known ones with each byte and each of the numbers at each value, and at each size;
 * every number of lamp kinds with every number of end kinds; two fluents of all counts; and about 65,535 rules.
 */
#include "calls.h"
#include "job_files/rules_damage.h"
#include "nessflurry.h"
#include "tally.h"
#include "trials.h"

static struct rules rules;
static uint8_t filled[PART_ROOM];

static uint64_t filled_with(size_t part_size, struct random *random) { return compare_fill(&rules, part_size, filled, random); }

static void expect_answer(uint64_t answer, unsigned refusal, const char *demanded)
{
    demand(nessflurry_refusal_of(answer) == refusal, demanded);
}

/* ---- Each byte at each value ---- */

/* A file's places are its bytes, and behind them the numbers that are given with it. */
static uint8_t *byte_at(uint32_t place_in_file)
{
    return place_in_file < rules.size ? &rules.bytes[place_in_file] : fill_number(&rules, place_in_file - (uint32_t)rules.size);
}

/* The file that a place is in becomes the one at hand. Answers the place in it. */
static uint32_t take_place(uint32_t place_in_all)
{
    for (enum known_rules which = RULES_OF_BENCH_G;; which++) {
        known_rules(&rules, which);
        const uint32_t places = (uint32_t)rules.size + FILL_NUMBERS;
        if (place_in_all < places)
            return place_in_all;
        place_in_all -= places;
    }
}

/* With the part that the numbers ask for, one that is a byte longer, and the one for the numbers as they were. */
static void try_each_value(uint32_t place_in_all, struct random *random)
{
    const uint32_t at = take_place(place_in_all);
    const size_t part_size = part_bytes(rules.numbers);
    for (int value = 0; value <= 255; value++) {
        *byte_at(at) = (uint8_t)value;
        const size_t asked = part_bytes(rules.numbers) % PART_ROOM;
        filled_with(asked, random);
        filled_with(asked + 1, random);
        filled_with(part_size, random);
    }
}

/* ---- Each size ---- */

static void known_job(struct job *job, enum known_rules which)
{
    switch (which) {
    case RULES_OF_BENCH_G: bench_line(job, BENCH_G); break;
    case RULES_OF_THREE_ENDS: three_ends_job(job); break;
    default: street_job(job); break;
    }
}

/* The cells are those of the job. */
static void expect_cells(enum known_rules which, struct random *random)
{
    static struct job job;
    static struct file file;
    expect_answer(filled_with(part_bytes(rules.numbers), random), 0, "a known rules file that is not refused");
    known_job(&job, which);
    write_file(&file, &job, random);
    demand(part_length(&file, CELLS) == part_bytes(rules.numbers)
               && memcmp(filled, file.bytes + part_offset(&file, CELLS), part_length(&file, CELLS)) == 0,
           "the cells of a known job, from its rules");
}

/* The bytes are those of rules in range, as far as rules end within the size. */
static void try_size(struct random *random)
{
    const size_t head = head_bytes(&rules), part_size = part_bytes(rules.numbers);
    const bool ends_right = rules.size >= head && (rules.size - head) % rule_bytes(&rules) == 0;
    expect_answer(filled_with(part_size, random), ends_right ? 0 : NESSFLURRY_REFUSED_RULES,
                  "22 for a file that ends within a rule or the counts, and no other");
    expect_answer(filled_with(part_size - 1, random), ends_right ? NESSFLURRY_REFUSED_PART_SIZE : NESSFLURRY_REFUSED_RULES,
                  "22 for a file that ends within a rule or the counts, else 23 for the part");
}

/* From no bytes to the whole, and on with a rule that comes again; then with any bytes, and what is owed depends on them. */
static void try_each_size(enum known_rules which, struct random *random)
{
    known_rules(&rules, which);
    expect_cells(which, random);
    add_again(&rules, 0);
    const size_t sound = rules.size, each = rule_bytes(&rules);
    random_bytes(random, rules.bytes + sound, each);
    for (rules.size = 0; rules.size < sound + each; rules.size++)
        try_size(random);
    filled_with(part_bytes(rules.numbers), random);
}

/* ---- Numbers ---- */

static const uint8_t two_values[] = {2};

static void try_each_end(uint8_t kinds, struct random *random)
{
    const struct rule rule = any_rule(0, 0);
    for (uint32_t end_kinds = 0; end_kinds <= 255; end_kinds++) {
        const bool in_range = kinds >= 1 && end_kinds >= 1 && end_kinds + kinds <= MOST_COLUMNS;
        begin_rules(&rules, (struct fill_numbers){1, 2, kinds, 1, (uint8_t)end_kinds}, 1, two_values);
        if (one_in(random, 2))
            add_rule(&rules, &rule);
        expect_answer(filled_with(part_bytes(rules.numbers), random), in_range ? 0 : NESSFLURRY_REFUSED_RULES,
                      "22 where there are too few or too many columns");
    }
}

/* With as many world states as the product has in its lowest 8 bits. */
static void try_each_count(uint8_t first, struct random *random)
{
    for (uint32_t second = 0; second <= 255; second++) {
        const uint32_t product = first * second;
        const bool in_range = product >= 1 && product <= MOST_WORLDS;
        const uint8_t counts[] = {first, (uint8_t)second};
        begin_rules(&rules, (struct fill_numbers){1, (uint8_t)product, 1, 1, 1}, 2, counts);
        expect_answer(filled_with(part_bytes(rules.numbers), random), in_range ? 0 : NESSFLURRY_REFUSED_RULES,
                      "22 where the counts do not multiply to the world states");
    }
}

/* ---- Many rules ---- */

/* All but the last are about action 1, so that it alone decides the cells of action 0; then it is put out of range. */
static void try_many_rules(uint32_t count, struct random *random)
{
    static const uint8_t cells[] = {0, 1, 0, 1, 1, 1, 1, 1, 0, 0, 0, 0, 1, 0, 1, 0};
    const struct rule other = any_rule(1, 0), last = any_rule(0, 1);
    begin_rules(&rules, (struct fill_numbers){2, 2, 1, 2, 1}, 1, two_values);
    for (uint32_t before = 1; before < count; before++)
        add_rule(&rules, &other);
    add_rule(&rules, &last);
    expect_answer(filled_with(sizeof cells, random), 0, "no refusal of many rules");
    demand(memcmp(filled, cells, sizeof cells) == 0, "the cells that only the last of many rules decides");
    rule_at(&rules, count - 1)[ACTION_AT] = rules.numbers.actions;
    expect_answer(filled_with(sizeof cells, random), NESSFLURRY_REFUSED_RULES, "22 for the last of many rules");
}

void try_known_rules(struct trial *trial, uint32_t which)
{
    if (which >= FIRST_MANY_RULES)
        try_many_rules(LEAST_MANY_RULES + which - FIRST_MANY_RULES, &trial->random);
    else if (which >= FIRST_COUNTS)
        try_each_count((uint8_t)(which - FIRST_COUNTS), &trial->random);
    else if (which >= FIRST_LAMP_KINDS)
        try_each_end((uint8_t)(which - FIRST_LAMP_KINDS), &trial->random);
    else if (which >= FIRST_RULES_SIZES)
        try_each_size(which - FIRST_RULES_SIZES, &trial->random);
    else
        try_each_value(which, &trial->random);
}
