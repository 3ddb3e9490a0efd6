/*
 * The outside test. Job files and rules files, sound and damaged, are made from their numbers. Jobs of every number of program
 * states and world states are checked over several contents of the buffers, and words of any content are summed. On all other
 * job files every operation on them is called on both sides and compared, and what the demands say of several calls together is
 * tried; and parts of right and wrong sizes are filled from rules files. All of it is done on a stack of the size that
 * nessflurry.h says a check needs; and the checks of the largest jobs are made first, each with that stack for itself. At last
 * files of one end kind are answered, and have to have the answers from before there were several, but with the start compared last.
 *
 *     compare           the standard run
 *     compare long      some seven times as many files
 *     compare short     every seventeenth trial
 *     compare only N    trial N
 */
#define _DEFAULT_SOURCE
#include "calls.h"
#include "nessflurry.h"
#include "old_answers.h"
#include "small_stack.h"
#include "tally.h"
#include "trials.h"

#include <inttypes.h>
#include <signal.h>
#include <stdio.h>
#include <stdlib.h>
#include <unistd.h>

enum { PATIENCE_SECONDS = 60, LONG_LOG_RARITY = 40 };

static void try_sound(struct trial *trial)
{
    demand(nessflurry_code_of(compare_read(&trial->random)) == NESSFLURRY_DONE, "no refusal of a sound file");
    try_walks(trial);
    for (int more = 0; more < 4; more++)
        try_run(trial);
    bool accepted = try_checks(trial);
    for (int more = 0; more < 2; more++) {
        try_short_buffers(trial);
        try_cabinet_calls(trial);
        lead_cabinet(trial, accepted);
    }
    try_logs(trial);
    /* On bench line G's variants, the known rivals and the largest jobs, and on some of the random ones. */
    if (place.number < FIRST_RANDOM || one_in(&trial->random, LONG_LOG_RARITY))
        try_longest_log(trial);
    try_rules_of_cells(trial);
}

/* Pairs and their bits, on a crowded job, which is accepted, or on a counting one, which fails at the last lamp of its line. */
static void try_pairs(struct trial *trial)
{
    uint64_t answer = try_contents(trial);
    if (place.number < FIRST_COUNTING)
        demand(nessflurry_code_of(answer) == NESSFLURRY_ACCEPTED && nessflurry_pairs_of(answer) == crowd_of(&trial->job),
               "accepted, with every pair but those of the states that move on");
    else
        demand(nessflurry_code_of(answer) == NESSFLURRY_NO_BRANCH, "the failure to which the counter leads");
    try_sums(trial);
}

static struct trial *take_trial(uint32_t number)
{
    static struct trial trial;
    place.number = number;
    alarm(PATIENCE_SECONDS);
    make_trial(&trial, number);
    take_file(&trial.file, &trial.random);
    return &trial;
}

static void try_number(uint32_t number)
{
    struct trial *trial = take_trial(number);
    if (number >= FIRST_RULES && number < FIRST_RANDOM)
        try_known_rules(trial, number - FIRST_RULES);
    else if (number >= FIRST_CROWDED && number < FIRST_LARGE)
        try_pairs(trial);
    else if (trial->sound)
        try_sound(trial);
    else
        try_file(trial);
    if (number >= FIRST_RANDOM)
        try_rules(trial);
}

/* A call that reads or writes astray traps, and one that runs on is found by the alarm: either ends the test. */
static void give_up(int signal)
{
    demand(false, signal == SIGALRM ? "a call that returns" : "no access beside what is lent, and no more stack than 256 KB");
    print_comparisons();
    fflush(stdout);
    _exit(1);
}

static void catch_signals(void)
{
    const struct sigaction action = {.sa_handler = give_up, .sa_flags = SA_ONSTACK};
    const int caught[] = {SIGSEGV, SIGBUS, SIGFPE, SIGILL, SIGALRM};
    for (size_t i = 0; i < sizeof caught / sizeof *caught; i++)
        sigaction(caught[i], &action, NULL);
}

struct numbers {
    uint32_t from, to, step;
};

static struct numbers chosen_numbers(int argc, char **argv)
{
    enum { STANDARD = FIRST_RANDOM + 40000, LONG = FIRST_RANDOM + 20 * 40000 };
    if (argc == 3 && strcmp(argv[1], "only") == 0) {
        uint32_t number = (uint32_t)strtoul(argv[2], NULL, 10);
        return (struct numbers){number, number + 1, 1};
    }
    if (argc == 2 && strcmp(argv[1], "long") == 0)
        return (struct numbers){0, LONG, 1};
    if (argc == 2 && strcmp(argv[1], "short") == 0)
        return (struct numbers){0, STANDARD, 17};
    if (argc == 1)
        return (struct numbers){0, STANDARD, 1};
    fprintf(stderr, "usage: compare [long | short | only NUMBER]\n");
    exit(2);
}

static void try_all(void *chosen)
{
    const struct numbers *numbers = chosen;
    for (uint32_t number = numbers->from; number < numbers->to; number += numbers->step)
        try_number(number);
}

/* The hardest jobs, with nothing but a check of the product on the small stack. */
static void try_large(void)
{
    for (uint32_t number = FIRST_LARGE; number < FIRST_RULES; number++)
        try_checks_alone(take_trial(number));
    printf("a check of the largest jobs takes at most %zu of %d bytes of stack\n", most_stack_taken(), NESSFLURRY_CHECK_STACK);
}

/* They are many files, for which there is more patience than for one. */
static void try_old_answers(void)
{
    alarm(10 * PATIENCE_SECONDS);
    compare_old_answers();
}

int main(int argc, char **argv)
{
    struct numbers numbers = chosen_numbers(argc, argv);
    if (nessflurry_version() != NESSFLURRY_VERSION) {
        fprintf(stderr, "the library is of version %" PRIu32 ", the header of %d\n", nessflurry_version(), NESSFLURRY_VERSION);
        return 2;
    }
    open_rooms();
    catch_signals();
    try_large();
    on_small_stack(try_all, &numbers);
    print_tally();
    bool only_one = numbers.to - numbers.from == 1, something_missing = !only_one && !all_seen();
    if (!only_one)
        try_old_answers();
    print_comparisons();
    return something_missing || differences() > 0;
}
