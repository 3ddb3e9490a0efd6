/*
 * Cells from rules (02, (e)): values known beforehand, the cells of bench line G, of the job of three end kinds and of the
 * samples' street, every refusal, and random rules files against the cells written rule by rule.
 */
#include "brute_rules.h"
#include "cases.h"
#include "job_files/random_rules.h"
#include "job_files/rules_damage.h"

#include <stdio.h>

enum { RANDOM_FILES = 20000, DAMAGED_FILES = 20000, SEED = 20051, BESIDE = 8, BEFORE = 165 };

/* The bytes of a rules file or of a part, and their number. */
#define BYTES(...) (const uint8_t[]){__VA_ARGS__}, sizeof (const uint8_t[]){__VA_ARGS__}

static struct rules rules;

/* The part, with some bytes beside it; BEFORE everywhere before a call. */
static uint8_t lent_part[BESIDE + NESSFLURRY_MAX_CELLS_SIZE + BESIDE], *const part = lent_part + BESIDE;

static uint64_t fill(size_t part_size)
{
    const struct fill_numbers with = rules.numbers;
    memset(lent_part, BEFORE, sizeof lent_part);
    return plain_fill_cells(rules.bytes, rules.size, with.actions, with.worlds, with.kinds, with.results, with.end_kinds, part,
                            part_size);
}

static bool as_before(const uint8_t *bytes, size_t count)
{
    for (size_t i = 0; i < count; i++)
        if (bytes[i] != BEFORE)
            return false;
    return true;
}

static void take_rules(struct fill_numbers numbers, const uint8_t *bytes, size_t size)
{
    rules.numbers = numbers;
    rules.size = size;
    memcpy(rules.bytes, bytes, size);
}

/* ---- Cells known beforehand ---- */

static void expect_filled(const char *what, const uint8_t *wanted, size_t wanted_size)
{
    const size_t size = part_bytes(rules.numbers);
    expect(what, size, wanted_size);
    expect(what, fill(size), ending(NESSFLURRY_DONE, 0));
    expect(what, memcmp(part, wanted, wanted_size) == 0, true);
    expect("what is beside a filled part", as_before(lent_part, BESIDE) && as_before(part + size, BESIDE), true);
}

static void one_fluent(void)
{
    const struct fill_numbers numbers = {1, 2, 1, 1, 1};
    take_rules(numbers, BYTES(1, 2, 0, 0, 254, 0, 1));
    expect_filled("value 0 at a lamp becomes 1", BYTES(0, 255, 1, 0, 0, 255, 0, 255));
    take_rules(numbers, BYTES(1, 2, 0, 0, 255, 0, 1));
    expect_filled("and at the end too", BYTES(1, 0, 1, 0, 0, 255, 0, 255));
    take_rules(numbers, BYTES(1, 2, 0, 0, 254, 255, 255));
    expect_filled("any value is kept", BYTES(0, 255, 0, 0, 0, 255, 1, 0));
    take_rules(numbers, BYTES(1, 2, 0, 0, 1, 1, 0));
    expect_filled("one column, value 1 becomes 0", BYTES(0, 255, 0, 255, 0, 255, 0, 0));
    take_rules(numbers, BYTES(1, 2));
    expect_filled("no rules", BYTES(0, 255, 0, 255, 0, 255, 0, 255));
}

/* Two results, so that the rules can be told apart. */
static void first_rule_decides(void)
{
    const struct fill_numbers numbers = {1, 2, 1, 2, 1};
    take_rules(numbers, BYTES(1, 2, 0, 1, 255, 0, 1, 0, 0, 255, 255, 0));
    expect_filled("a particular rule before a general one", BYTES(1, 1, 1, 1, 0, 0, 0, 0));
    take_rules(numbers, BYTES(1, 2, 0, 0, 255, 255, 0, 0, 1, 255, 0, 1));
    expect_filled("a general rule before a particular one", BYTES(0, 0, 0, 0, 0, 0, 0, 0));
    take_rules(numbers, BYTES(1, 2, 0, 1, 0, 255, 1, 0, 0, 254, 255, 0));
    expect_filled("rules that do not meet", BYTES(1, 1, 0, 0, 1, 1, 0, 0));
    take_rules((struct fill_numbers){2, 1, 1, 2, 1}, BYTES(1, 1, 1, 1, 255, 0, 0, 0, 0, 255, 0, 0));
    expect_filled("rules of two actions, the second one's first", BYTES(0, 0, 0, 0, 0, 1, 0, 1));
}

/* Two and three values: world state 3·first + second. */
static void first_fluent_slowest(void)
{
    const struct fill_numbers numbers = {1, 6, 1, 1, 1};
    take_rules(numbers, BYTES(2, 2, 3, 0, 0, 1, 1, 255, 255, 255));
    expect_filled("the first fluent at 1", BYTES(0, 255, 0, 255, 0, 255, 0, 255, 0, 255, 0, 255,
                                                 0, 255, 3, 0, 0, 255, 4, 0, 0, 255, 5, 0));
    take_rules(numbers, BYTES(2, 2, 3, 0, 0, 1, 255, 2, 255, 0));
    expect_filled("the second from 2 to 0", BYTES(0, 255, 0, 255, 0, 255, 0, 255, 0, 255, 0, 0,
                                                  0, 255, 0, 255, 0, 255, 0, 255, 0, 255, 3, 0));
    take_rules(numbers, BYTES(2, 2, 3, 0, 0, 0, 255, 255, 1, 255));
    expect_filled("the first becomes 1", BYTES(3, 0, 0, 255, 4, 0, 0, 255, 5, 0, 0, 255,
                                               3, 0, 0, 255, 4, 0, 0, 255, 5, 0, 0, 255));
    take_rules(numbers, BYTES(2, 3, 2, 0, 0, 1, 2, 1, 0, 1));
    expect_filled("three and two values, the last world state", BYTES(0, 255, 0, 255, 0, 255, 0, 255, 0, 255, 0, 255,
                                                                      0, 255, 0, 255, 0, 255, 0, 255, 0, 255, 1, 0));
}

/* Three end kinds and two lamp kinds. */
static void columns(void)
{
    const struct fill_numbers numbers = {1, 1, 2, 1, 3};
    take_rules(numbers, BYTES(1, 1, 0, 0, 254, 0, 0));
    expect_filled("any lamp", BYTES(0, 255, 0, 255, 0, 255, 0, 0, 0, 0));
    take_rules(numbers, BYTES(1, 1, 0, 0, 255, 255, 255));
    expect_filled("any column", BYTES(0, 0, 0, 0, 0, 0, 0, 0, 0, 0));
    take_rules(numbers, BYTES(1, 1, 0, 0, 2, 0, 0));
    expect_filled("the last end kind", BYTES(0, 255, 0, 255, 0, 0, 0, 255, 0, 255));
    take_rules(numbers, BYTES(1, 1, 0, 0, 3, 0, 0));
    expect_filled("the first lamp kind", BYTES(0, 255, 0, 255, 0, 255, 0, 0, 0, 255));
    take_rules(numbers, BYTES(1, 1, 0, 0, 4, 0, 0));
    expect_filled("the last lamp kind", BYTES(0, 255, 0, 255, 0, 255, 0, 255, 0, 0));
}

/* Six fluents of two values; the rule turns the slowest and the quickest. */
static void six_fluents(void)
{
    take_rules((struct fill_numbers){1, 64, 1, 1, 1},
               BYTES(6, 2, 2, 2, 2, 2, 2, 0, 0, 1, 0, 255, 255, 255, 255, 1, 1, 255, 255, 255, 255, 0));
    uint8_t wanted[256];
    for (uint8_t world = 0; world < 64; world++) {
        const bool matches = world < 32 && world % 2 == 1;
        memcpy(wanted + 4 * world, (const uint8_t[]){0, 255, matches ? world + 31 : 0, matches ? 0 : 255}, 4);
    }
    expect_filled("six fluents", wanted, sizeof wanted);
}

/* ---- The cells of known jobs ---- */

/* The sizes are those that compare/trials.h has. */
static void known_jobs(void)
{
    known_rules(&rules, RULES_OF_BENCH_G);
    expect("size of bench line G's rules", rules.size, 47);
    take_bench(BENCH_G);
    expect_filled("bench line G from rules", file.bytes + 32, 72);
    known_rules(&rules, RULES_OF_THREE_ENDS);
    expect("size of the rules for three end kinds", rules.size, 37);
    take_three_ends();
    expect_filled("three end kinds from rules", file.bytes + part_offset(&file, CELLS), part_length(&file, CELLS));
    known_rules(&rules, RULES_OF_STREET);
    expect("size of the street's rules", rules.size, 52);
    take_street();
    expect("size of the street's job", file.size, 131);
    expect_filled("the street from rules", file.bytes + 31, 72);
}

/* The street's job of the filled part, and its plan that goes on from a dark lamp as from a lit one. */
static void street(void)
{
    enum { TO_IF_DARK = 122, DARK = 2 }; /* the place of a target, and a lamp kind */
    known_rules(&rules, RULES_OF_STREET);
    take_street();
    expect("the street's cells", fill(72), ending(NESSFLURRY_DONE, 0));
    memcpy(file.bytes + 31, part, 72);
    expect("the street", check(), ending(NESSFLURRY_ACCEPTED, 1));
    file.bytes[TO_IF_DARK] = 2;
    expect("the street with its dark lamps left", check(), failing(NESSFLURRY_GOAL_FALSE, 0, 1, 0));
    expect("the lamp that is left dark", lent.line[0], DARK);
}

/* ---- Refusals ---- */

static void expect_refused_with(const char *what, size_t part_size, unsigned refusal)
{
    expect(what, fill(part_size), refused(refusal));
    expect("the part of a refused call", as_before(lent_part, sizeof lent_part), true);
}

/* Whatever the part is: 22 comes before 23. */
static void expect_22(const char *what)
{
    const size_t right = part_bytes(rules.numbers) % NESSFLURRY_MAX_CELLS_SIZE;
    expect_refused_with(what, right, 22);
    expect_refused_with(what, right + 1, 22);
    expect_refused_with(what, 0, 22);
}

static void expect_refused_bytes(const char *what, struct fill_numbers numbers, const uint8_t *bytes, size_t size)
{
    take_rules(numbers, bytes, size);
    expect_22(what);
}

static void refused_heads(void)
{
    const struct fill_numbers one = {1, 1, 1, 1, 1}, two = {1, 2, 1, 1, 1}, most = {1, 64, 1, 1, 1};
    take_rules(one, rules.bytes, 0);
    expect_22("an empty file");
    expect_refused_bytes("no fluents", one, BYTES(0));
    expect_refused_bytes("no fluents, and a rule", one, BYTES(0, 0, 0, 255));
    expect_refused_bytes("seven fluents", two, BYTES(7, 1, 1, 1, 1, 1, 1, 2));
    expect_refused_bytes("255 fluents", one, BYTES(255, 1));
    expect_refused_bytes("no count", one, BYTES(1));
    expect_refused_bytes("one count of two", two, BYTES(2, 2));
    expect_refused_bytes("a count of 0", one, BYTES(1, 0));
    expect_refused_bytes("a count of 0 beside the right one", two, BYTES(2, 2, 0));
    expect_refused_bytes("a product above W", two, BYTES(1, 3));
    expect_refused_bytes("a product below W", two, BYTES(2, 1, 1));
    expect_refused_bytes("a product of 256 + 2", two, BYTES(2, 2, 129));
    expect_refused_bytes("a product of 65,536 + 64", most, BYTES(3, 2, 160, 205));
    expect_refused_bytes("a product of 182 times 2 to the 32nd + 64", most, BYTES(6, 3, 149, 223, 237, 176, 188));
}

static void refused_lengths(void)
{
    const struct fill_numbers numbers = {1, 2, 1, 1, 1};
    expect_refused_bytes("a byte behind the counts", numbers, BYTES(1, 2, 0));
    expect_refused_bytes("a rule without its last byte", numbers, BYTES(1, 2, 0, 0, 254, 0));
    expect_refused_bytes("a byte behind a rule", numbers, BYTES(1, 2, 0, 0, 254, 0, 1, 0));
    expect_refused_bytes("a rule of two fluents for one", numbers, BYTES(1, 2, 0, 0, 254, 0, 0, 1, 1));
}

/* A job of one of each, and a number too low or too high. */
static void refused_numbers(void)
{
    const uint8_t too_high[FILL_NUMBERS] = {17, 65, 16, 9, 16};
    char what[40];
    for (uint32_t which = 0; which < FILL_NUMBERS; which++) {
        const uint8_t wrong[] = {0, too_high[which], 255};
        for (size_t i = 0; i < sizeof wrong; i++) {
            take_rules((struct fill_numbers){1, 1, 1, 1, 1}, BYTES(1, 1));
            *fill_number(&rules, which) = wrong[i];
            rules.bytes[1] = rules.numbers.worlds; /* so that the product is right */
            snprintf(what, sizeof what, "number %u being %u", (unsigned)which, wrong[i]);
            expect_22(what);
        }
    }
    for (uint8_t kinds = 1; kinds <= MOST_KINDS; kinds++) {
        take_rules((struct fill_numbers){1, 1, kinds, 1, (uint8_t)(17 - kinds)}, BYTES(1, 1));
        expect_22("17 columns");
        take_rules((struct fill_numbers){1, 1, kinds, 1, (uint8_t)(16 - kinds)}, BYTES(1, 1));
        expect("16 columns", fill(32), ending(NESSFLURRY_DONE, 0));
    }
}

/* Two actions, six world states of two and three values, two results, four columns: the rule's place, and what it must not be. */
static void refused_values(void)
{
    static const uint8_t wrong[][2] = {{0, 2}, {0, 254}, {0, 255}, {1, 2}, {1, 254}, {1, 255}, {2, 4}, {2, 253}, {3, 2}, {3, 254},
                                       {4, 3}, {4, 254}, {5, 2},   {5, 254}, {6, 3}, {6, 254}};
    static const uint8_t right[][2] = {{0, 1}, {1, 1}, {2, 3}, {2, 254}, {2, 255}, {3, 1}, {3, 255}, {4, 2}, {4, 255}, {5, 1},
                                       {5, 255}, {6, 2}, {6, 255}};
    const struct fill_numbers numbers = {2, 6, 2, 2, 2};
    char what[40];
    for (size_t i = 0; i < sizeof wrong / sizeof *wrong; i++)
        for (size_t rule = 0; rule < 2; rule++) {
            take_rules(numbers, BYTES(2, 2, 3, 0, 0, 255, 255, 255, 255, 255, 0, 0, 255, 255, 255, 255, 255));
            rule_at(&rules, rule)[wrong[i][0]] = wrong[i][1];
            snprintf(what, sizeof what, "byte %u of rule %zu being %u", wrong[i][0], rule, wrong[i][1]);
            expect_22(what);
        }
    for (size_t i = 0; i < sizeof right / sizeof *right; i++) {
        take_rules(numbers, BYTES(2, 2, 3, 0, 0, 255, 255, 255, 255, 255));
        rule_at(&rules, 0)[right[i][0]] = right[i][1];
        snprintf(what, sizeof what, "byte %u being %u", right[i][0], right[i][1]);
        expect(what, fill(part_bytes(numbers)), ending(NESSFLURRY_DONE, 0));
    }
}

static void refused_parts(void)
{
    const size_t wrong[] = {0, 71, 73, 144, 72 + 256};
    known_rules(&rules, RULES_OF_BENCH_G);
    for (size_t i = 0; i < sizeof wrong / sizeof *wrong; i++)
        expect_refused_with("a part of a wrong size", wrong[i], 23);
    sized_rules(&rules, (struct fill_numbers){16, 64, 15, 8, 1}, 3, 5, true);
    expect_refused_with("the longest part without its last byte", NESSFLURRY_MAX_CELLS_SIZE - 1, 23);
}

static void nothing_lent(void)
{
    expect("no file and no part", plain_fill_cells(NULL, 0, 1, 1, 1, 1, 1, NULL, 0), refused(22));
    expect("no part", plain_fill_cells((const uint8_t[]){1, 1}, 2, 1, 1, 1, 1, 1, NULL, 0), refused(23));
}

/* ---- Random files ---- */

static void expect_as_brute_fill(void)
{
    static uint8_t wanted[NESSFLURRY_MAX_CELLS_SIZE];
    brute_fill(&rules, wanted);
    expect_filled("cells against those written rule by rule", wanted, part_bytes(rules.numbers));
}

static void random_files(void)
{
    const struct rule last = any_rule(0, 0);
    struct random random = {SEED};
    for (unsigned count = 0; count < RANDOM_FILES; count++) {
        if (count % 50 == 0)
            random_rules(&rules, &random);
        else
            small_rules(&rules, &random);
        expect_as_brute_fill();
    }
    long_rules(&rules, &random);
    add_rule(&rules, &last); /* no other is about action 0, so that cells are decided at the file's end */
    expect_as_brute_fill();
    sized_rules(&rules, (struct fill_numbers){16, 64, 13, 8, 3}, MOST_FLUENTS, 100, true);
    expect_as_brute_fill();
}

static void damaged_files(void)
{
    struct random random = {SEED};
    for (unsigned count = 0; count < DAMAGED_FILES; count++) {
        small_rules(&rules, &random);
        damage_rules(&rules, &random);
        expect_refused_with("a damaged rules file", part_bytes(rules.numbers) % NESSFLURRY_MAX_CELLS_SIZE, 22);
    }
}

void rules_cases(void)
{
    one_fluent();
    first_rule_decides();
    first_fluent_slowest();
    columns();
    six_fluents();
    known_jobs();
    street();
    refused_heads();
    refused_lengths();
    refused_numbers();
    refused_values();
    refused_parts();
    nothing_lent();
    random_files();
    damaged_files();
}
