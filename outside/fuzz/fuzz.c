/*
 * The fuzz target. From any bytes it makes a job file or a rules file and what is handed over with it (input.h), calls every
 * operation on both sides, and compares them (compare/calls.h). At the first difference it aborts, so that libFuzzer keeps the
 * input.
 *
 * What guides libFuzzer are the ways that the plain implementation takes: the product is compiled by another compiler.
 */
#include "compare/tally.h"
#include "job_files/damage.h"
#include "job_files/rules_damage.h"
#include "nessflurry.h"
#include "repair.h"
#include "tries.h"

#include <stdio.h>
#include <stdlib.h>

/* What libFuzzer calls. */
int LLVMFuzzerInitialize(int *argc, char ***argv);
int LLVMFuzzerTestOneInput(const uint8_t *data, size_t size);

/* ---- Job files ---- */

static struct file file;
static struct job job;

static const uint8_t *part(enum part part) { return file.bytes + part_offset(&file, part); }

static void take_cells(void)
{
    const uint8_t *cell = part(CELLS);
    for (int action = 0; action < job.actions; action++)
        for (int world = 0; world < job.worlds; world++)
            for (int column = 0; column < columns_of(&job); column++, cell += 2)
                job.cells[action][world][column] = (struct cell){cell[0], cell[1]};
}

static void take_goal(void)
{
    const uint8_t *goal = part(GOAL);
    for (int world = 0; world < job.worlds; world++, goal += columns_of(&job))
        memcpy(job.goal[world], goal, columns_of(&job));
}

static void take_plan(void)
{
    const uint8_t *row = part(PLAN);
    for (int state = 0; state < job.states; state++, row += 1 + job.results) {
        job.action[state] = row[0];
        memcpy(job.target[state], row + 1, job.results);
    }
}

/* The job of the file, which is not refused. Gaps are not looked for. */
static void take_job(void)
{
    const uint8_t *const bytes = file.bytes;
    set_numbers(&job, (struct job_numbers){bytes[0], bytes[1], bytes[2], bytes[3], bytes[4], bytes[6]});
    job.first = bytes[5];
    memcpy(job.marks, part(MARKS), job.actions);
    memcpy(job.starts, part(STARTS), job.worlds);
    take_cells();
    take_goal();
    take_plan();
}

/* Answers the refusal of the file, or 0. */
static unsigned try_job_file(const struct arguments *with, struct random *random)
{
    take_file(&file, random);
    const uint64_t answer = compare_read(random);
    if (nessflurry_code_of(answer) == NESSFLURRY_REFUSED) {
        try_refused(with, nessflurry_refusal_of(answer), random);
        return nessflurry_refusal_of(answer);
    }
    take_job();
    try_calls(with, &job);
    const uint64_t check = try_checks(with, &job, random);
    try_line(with, &job, check);
    return 0;
}

static void try_job_as_it_stands(const struct arguments *with, const uint8_t *bytes, size_t size, struct random *random)
{
    file.size = size < sizeof file.bytes ? size : sizeof file.bytes;
    memcpy(file.bytes, bytes, file.size);
    try_job_file(with, random);
}

/* About as many bytes as there are, or about the most. */
static size_t other_size(struct random *chance)
{
    const uint32_t more = below(chance, 8);
    return one_in(chance, 8) ? (size_t)NESSFLURRY_MAX_FILE_SIZE - 2 + more / 2 : file.size - 4 + more;
}

/* Damage of one kind or another; answers the refusal that is due then, or 0 where it is not known. */
static unsigned damage_file(struct random *chance)
{
    switch (below(chance, 8)) {
    case 0: scramble(&file, chance); return 0;
    case 1: shift_columns(&file, &job, chance); return 0;
    case 2: resize(&file, other_size(chance), chance); return 0;
    default: return damage(&file, &job, chance);
    }
}

/* A job that is repaired, or of a family; and its file once more, damaged. */
static void try_made_job(const struct arguments *with, struct random *random, struct random *chance)
{
    write_file(&file, &job, random);
    demand(try_job_file(with, random) == 0, "no refusal of a repaired file");
    const unsigned due = damage_file(chance), refusal = try_job_file(with, random);
    demand(due == 0 || refusal == due, "the lowest refusal that is due for the file");
}

/* ---- Rules files ---- */

static struct rules rules;

/* What the counts of the fluents multiply to, as far as the file has them, in a byte. */
static uint8_t product_of_counts(void)
{
    uint8_t product = 1;
    for (size_t at = 1; at < rules.size && at <= rules.bytes[0]; at++)
        product = (uint8_t)(product * rules.bytes[at]);
    return product;
}

/* W is often the product of the counts, whatever they are. */
static void try_fill(const struct arguments *with, struct random *random)
{
    static uint8_t filled[PART_ROOM];
    if (with->worlds >= 128)
        rules.numbers.worlds = product_of_counts();
    const size_t needed = part_bytes(rules.numbers), most = NESSFLURRY_MAX_CELLS_SIZE;
    compare_fill(&rules, mostly_enough(with->part_size, needed < most ? needed : most), filled, random);
}

static void try_rules_as_they_stand(const struct arguments *with, const uint8_t *bytes, size_t size, struct random *random)
{
    rules.size = size < RULES_ROOM ? size : RULES_ROOM;
    memcpy(rules.bytes, bytes, rules.size);
    rules.numbers = (struct fill_numbers){with->actions, with->worlds, with->kinds, with->results, with->end_kinds};
    try_fill(with, random);
}

/* Also with damage of one kind or another. */
static void try_rules_repaired(const struct arguments *with, const uint8_t *bytes, size_t size, struct random *random,
                               struct random *chance)
{
    static uint8_t filled[PART_ROOM];
    repair_rules(&rules, with, bytes, size, random);
    demand(nessflurry_code_of(compare_fill(&rules, part_bytes(rules.numbers), filled, random)) == NESSFLURRY_DONE,
           "a part filled by a repaired rules file");
    if (one_in(chance, 2))
        damage_rules(&rules, chance);
    else
        scramble_rules(&rules, chance);
    try_fill(with, random);
}

/* The bytes as words, summed up to any bit of them or somewhat beyond, and very rarely far beyond. */
static void try_sum(const struct arguments *with, const uint8_t *bytes, size_t size)
{
    static uint64_t words[MOST_WORDS];
    const size_t count = size / sizeof *words < MOST_WORDS ? size / sizeof *words : MOST_WORDS;
    memcpy(words, bytes, count * sizeof *words);
    const size_t bits = number_of(with->limit) % (64 * (count + 1) + 1);
    compare_sum(words, count, is_very_rare(with->manner) ? SIZE_MAX - bits : bits);
}

/* ---- The target ---- */

/* A number that changes with every byte of the input. */
static uint64_t number_from(const uint8_t *data, size_t size)
{
    struct random random = {size};
    for (size_t at = 0; at < size; at++)
        random.state = random_word(&random) ^ data[at];
    return random.state;
}

static void try_input(const struct arguments *with, const uint8_t *bytes, size_t size, struct random *chance)
{
    struct random random = {number_of(with->seed)};
    switch ((enum route)(with->route % ROUTES)) {
    case JOB_AS_IT_STANDS: try_job_as_it_stands(with, bytes, size, &random); break;
    case JOB_REPAIRED:
        repair_job(&job, with, bytes, size, &random);
        try_made_job(with, &random, chance);
        break;
    case JOB_OF_A_FAMILY:
        change_family_job(&job, with, bytes, size, &random);
        try_made_job(with, &random, chance);
        break;
    case RULES_AS_THEY_STAND: try_rules_as_they_stand(with, bytes, size, &random); break;
    default: try_rules_repaired(with, bytes, size, &random, chance); break;
    }
    try_sum(with, bytes, size);
}

static void tell(void)
{
    print_tally();
    print_comparisons();
}

int LLVMFuzzerInitialize(int *argc, char ***argv)
{
    (void)argc;
    (void)argv;
    if (nessflurry_version() != NESSFLURRY_VERSION) {
        fprintf(stderr, "the library is of another version than the header\n");
        exit(2);
    }
    place.number = NO_TRIAL;
    open_rooms();
    atexit(tell);
    return 0;
}

int LLVMFuzzerTestOneInput(const uint8_t *data, size_t size)
{
    struct arguments with;
    struct random chance = {number_from(data, size)};
    if (size < ARGUMENTS)
        return 0;
    memcpy(&with, data, ARGUMENTS);
    try_input(&with, data + ARGUMENTS, size - ARGUMENTS, &chance);
    if (differences() > 0) {
        fflush(stdout);
        abort();
    }
    return 0;
}
