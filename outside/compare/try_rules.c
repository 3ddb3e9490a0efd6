/*
 * Cells from random rules files (02, (e)): sound ones, what a further rule changes, what the reader makes of the cells, and every
 * refusal.
 */
#include "calls.h"
#include "job_files/random_rules.h"
#include "job_files/rules_damage.h"
#include "nessflurry.h"
#include "tally.h"
#include "trials.h"

static struct rules rules;
static uint8_t filled[PART_ROOM], expected[PART_ROOM];

static uint64_t filled_with(size_t part_size, struct random *random) { return compare_fill(&rules, part_size, filled, random); }

static bool is_done(uint64_t answer) { return nessflurry_code_of(answer) == NESSFLURRY_DONE; }

static void fill_part(struct random *random)
{
    demand(is_done(filled_with(part_bytes(rules.numbers), random)), "a part filled by a sound rules file");
}

/* ---- A rule whose cells are known ---- */

/* A rule that is about one world state and one column, or keeps every world state at some or all columns. */
struct known_rule {
    struct rule rule;
    bool keeps;
    uint8_t world, next; /* where it does not keep them */
};

static bool covers(const struct known_rule *known, uint32_t world, uint32_t column)
{
    if (!known->keeps && world != known->world)
        return false;
    switch (known->rule.column) {
    case ANY_COLUMN: return true;
    case ANY_LAMP: return column >= rules.numbers.end_kinds;
    default: return column == known->rule.column;
    }
}

/* The cells of its action with the rule, which decides those that it covers: all of them, or those that were not legal. */
static void expect_with(const struct known_rule *known, bool only_not_legal)
{
    const struct fill_numbers numbers = rules.numbers;
    for (uint32_t world = 0; world < numbers.worlds; world++)
        for (uint32_t column = 0; column < columns_with(numbers); column++) {
            uint8_t *cell = &expected[cell_at(numbers, known->rule.action, world, column)];
            if (!covers(known, world, column) || (only_not_legal && cell[1] != NONE))
                continue;
            cell[0] = known->keeps ? (uint8_t)world : known->next;
            cell[1] = known->rule.result;
        }
}

static struct known_rule choose_known(struct random *random)
{
    const struct fill_numbers numbers = rules.numbers;
    const uint8_t columns[] = {ANY_LAMP, ANY_COLUMN, (uint8_t)below(random, (uint32_t)columns_with(numbers))};
    const uint8_t action = (uint8_t)below(random, numbers.actions), result = (uint8_t)below(random, numbers.results);
    struct known_rule known = {.rule = any_rule(action, result), .keeps = one_in(random, 2)};
    known.rule.column = columns[below(random, 3)];
    known.world = (uint8_t)below(random, numbers.worlds);
    known.next = (uint8_t)below(random, numbers.worlds);
    if (!known.keeps) {
        values_in(&rules, known.world, known.rule.wanted);
        values_in(&rules, known.next, known.rule.given);
    }
    return known;
}

static void expect_part(const char *demanded)
{
    demand(memcmp(filled, expected, part_bytes(rules.numbers)) == 0, demanded);
}

/* Before all rules it decides what it covers; behind them it decides only where none did. */
static void try_known_rule(struct random *random)
{
    const struct known_rule known = choose_known(random);
    const bool first = one_in(random, 2);
    memcpy(expected, filled, part_bytes(rules.numbers));
    expect_with(&known, !first);
    if (first)
        put_rule_first(&rules, &known.rule);
    else
        add_rule(&rules, &known.rule);
    fill_part(random);
    expect_part(first ? "the cells of a rule that comes first" : "the cells that only the last rule decides");
}

/* A rule that comes again decides nothing. */
static void try_rule_again(struct random *random)
{
    if (rules_in(&rules) == 0)
        return;
    add_again(&rules, below(random, (uint32_t)rules_in(&rules)));
    memcpy(expected, filled, part_bytes(rules.numbers));
    fill_part(random);
    expect_part("the same cells, where a rule comes again");
}

static void try_no_rules(struct random *random)
{
    const size_t part_size = part_bytes(rules.numbers);
    leave_out_rules(&rules);
    fill_part(random);
    bool none_legal = true;
    for (size_t at = 0; at < part_size; at += 2)
        none_legal = none_legal && filled[at] == 0 && filled[at + 1] == NONE;
    demand(none_legal, "nothing legal without rules");
}

/* ---- The cells in a job file ---- */

static struct job job;

/* The job of the filled part: no action moves on, no plan, and every world state is a start. */
static void take_cells(void)
{
    const struct fill_numbers numbers = rules.numbers;
    memset(job.gap, 0, sizeof job.gap);
    set_numbers(&job, (struct job_numbers){numbers.actions, numbers.worlds, numbers.kinds, numbers.results, 0,
                                           (uint8_t)(numbers.end_kinds - 1)});
    job.first = 0;
    clear_tables(&job);
    memset(job.starts, 1, numbers.worlds);
}

static bool legal_at_an_end(uint32_t action)
{
    for (uint32_t world = 0; world < rules.numbers.worlds; world++)
        for (uint32_t end = 0; end < rules.numbers.end_kinds; end++)
            if (filled[cell_at(rules.numbers, action, world, end) + 1] != NONE)
                return true;
    return false;
}

/* The reader's refusal of the job, or 0, with the filled part in the place of its cells. */
static unsigned read_refusal(struct random *random)
{
    static struct file file;
    write_file(&file, &job, random);
    memcpy(file.bytes + part_offset(&file, CELLS), filled, part_length(&file, CELLS));
    take_file(&file, random);
    return nessflurry_refusal_of(compare_read(random));
}

/* No filled part is refused with 6; and 7 is for actions that move on and are legal at an end. */
static void try_in_job(struct random *random)
{
    take_cells();
    demand(read_refusal(random) == 0, "a filled part that the reader takes");
    const uint32_t action = below(random, rules.numbers.actions);
    job.marks[action] = 1;
    const unsigned due = legal_at_an_end(action) ? NESSFLURRY_REFUSED_END_CELLS : 0;
    demand(read_refusal(random) == due, "refusal 7, where rules make an action legal at an end and it moves on");
}

/* The action moves on, and the only rule about it is for lamps, or for everywhere. */
static void try_moving_on(struct random *random)
{
    const bool everywhere = one_in(random, 2);
    const uint8_t action = (uint8_t)below(random, rules.numbers.actions);
    struct rule rule = any_rule(action, 0);
    rule.column = everywhere ? ANY_COLUMN : ANY_LAMP;
    leave_out_rules(&rules);
    add_rule(&rules, &rule);
    fill_part(random);
    take_cells();
    job.marks[action] = 1;
    const unsigned due = everywhere ? NESSFLURRY_REFUSED_END_CELLS : 0;
    demand(read_refusal(random) == due, "refusal 7 where a rule is for ends too, and only there");
}

/* ---- Refusals ---- */

/* Next to the right one, none, what other numbers would give, and what equals the right one in its lowest 8 or 16 bits. */
static size_t wrong_part_size(struct random *random)
{
    const size_t right = part_bytes(rules.numbers), columns = columns_with(rules.numbers);
    const size_t sizes[] = {right - 1, right + 1, 0,           right / 2,     right / columns * (columns + 1),
                            2 * right, right + 2, right + 256, right + 65536, below(random, PART_ROOM)};
    const size_t size = sizes[below(random, sizeof sizes / sizeof *sizes)];
    return size == right ? right + 1 : size;
}

static void try_wrong_part(struct random *random)
{
    const uint64_t answer = filled_with(wrong_part_size(random), random);
    demand(nessflurry_refusal_of(answer) == NESSFLURRY_REFUSED_PART_SIZE, "the refusal of the part's size");
}

/* The size that the numbers give, though they may be out of range, or any other. */
static size_t any_part_size(struct random *random)
{
    const size_t right = part_bytes(rules.numbers), any = below(random, 200);
    return one_in(random, 3) ? any : right % (PART_ROOM + 1);
}

static void try_damaged(struct random *random)
{
    damage_rules(&rules, random);
    for (int more = 0; more < 2; more++) {
        const uint64_t answer = filled_with(any_part_size(random), random);
        demand(nessflurry_refusal_of(answer) == NESSFLURRY_REFUSED_RULES, "the refusal of rules or numbers, whatever the part");
    }
}

static void try_scrambled(struct random *random)
{
    scramble_rules(&rules, random);
    filled_with(any_part_size(random), random);
}

/* ---- The trials ---- */

static void try_sound_rules(struct random *random)
{
    fill_part(random);
    if (one_in(random, 3))
        try_in_job(random);
    try_wrong_part(random);
    try_rule_again(random);
    try_known_rule(random);
}

enum { LONG_RULES_RARITY = 400 };

void try_rules(struct trial *trial)
{
    struct random *random = &trial->random;
    if (one_in(random, LONG_RULES_RARITY))
        long_rules(&rules, random);
    else
        random_rules(&rules, random);
    try_sound_rules(random);
    try_damaged(random);
    random_rules(&rules, random);
    switch (below(random, 4)) {
    case 0: try_no_rules(random); break;
    case 1: try_moving_on(random); break;
    default: try_scrambled(random); break;
    }
}

void try_rules_of_cells(struct trial *trial)
{
    enum { FEW_CELLS = 500, MANY_CELLS = 2048, RARITY = 20 };
    const struct job *of = &trial->job;
    const uint32_t cells = (uint32_t)of->actions * of->worlds * columns_of(of);
    if (cells > (one_in(&trial->random, RARITY) ? MANY_CELLS : FEW_CELLS))
        return;
    rules_of_cells(&rules, of, &trial->random);
    fill_part(&trial->random);
    memcpy(expected, trial->file.bytes + part_offset(&trial->file, CELLS), part_bytes(rules.numbers));
    expect_part("the cells of the job that the rules say");
}
