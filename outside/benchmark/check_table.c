/*
 * The checks beside the two forms that each has in C: one walks each time, the other remembers what walks came to. Which of
 * them is the quicker one depends on the job, so the product is held against the better of the two.
 */
#include "measure.h"
#include "tables.h"

#include <inttypes.h>
#include <stdio.h>

static struct greatest furthest_behind, furthest_ahead, furthest_behind_up_to;

static uint64_t measure_forms(side_call *call, const struct subject *subject, double best[CHECK_SIDES], double *to_better)
{
    uint64_t answer = measure(call, subject, CHECK_SIDES, best);
    double better = best[PLAIN] < best[REMEMBERING] ? best[PLAIN] : best[REMEMBERING];
    *to_better = best[NESSFLURRY] / better;
    return answer;
}

static uint64_t measure_check(const struct subject *subject, double best[CHECK_SIDES], double *to_better)
{
    uint64_t answer = measure_forms(call_check, subject, best, to_better);
    note(&furthest_behind, *to_better, subject);
    note(&furthest_ahead, best[PLAIN] / best[NESSFLURRY], subject);
    return answer;
}

static void print_title(const char *first)
{
    printf("%-14s%-23s%12s%13s%9s%9s\n", first, "job", "nessflurry", "/ remembers", "/ walks", "/ better");
}

static void print_measured(const char *first, const struct subject *subject, const double best[CHECK_SIDES], double to_better)
{
    printf("%-14s%-23s%12.0f%13.3f%9.3f%9.3f", first, subject->name, best[NESSFLURRY], best[NESSFLURRY] / best[REMEMBERING],
           best[NESSFLURRY] / best[PLAIN], to_better);
}

/* ---- Jobs by class ---- */

static const struct {
    const char *name;
    enum bench_variant variant;
} bench[] = {{"bench_g", BENCH_G}, {"bench_failure", BENCH_FIVE_STATES}, {"bench_circle", BENCH_PEEK_FOR_EVER}};

static const struct {
    const char *class;
    enum sized_job which;
    enum size size;
} sized[] = {
    {"small domain", JOB_RANDOM, SMALL},       {"small domain", JOB_RANDOM_FAILURE, SMALL},
    {"long failure", JOB_LONG_FAILURE, SMALL}, {"long failure", JOB_LONG_FAILURE, MIDDLE},
    {"long failure", JOB_LONG_FAILURE, FULL},  {"over at once", JOB_AT_ONCE, FULL},
    {"over at once", JOB_FIRST_LAMP, FULL},    {"over at once", JOB_CIRCLE, FULL},
    {"over soon", JOB_RANDOM_FAILURE, MIDDLE}, {"over soon", JOB_RANDOM_FAILURE, FULL},
    {"many pairs", JOB_ACCEPTED, SMALL},       {"many pairs", JOB_ACCEPTED, MIDDLE},
    {"many pairs", JOB_ACCEPTED, FULL},        {"many pairs", JOB_RANDOM, MIDDLE},
    {"many pairs", JOB_RANDOM, FULL},          {"many starts", JOB_RIVALS, SMALL},
    {"many starts", JOB_RIVALS, MIDDLE},       {"many starts", JOB_RIVALS, FULL},
    {"long walks", JOB_WALK, SMALL},           {"long walks", JOB_WALK, MIDDLE},
    {"long walks", JOB_WALK, FULL},            {"long walks", JOB_WORK, SMALL},
    {"long walks", JOB_WORK, MIDDLE},          {"long walks", JOB_WORK, FULL},
};

/* The largest jobs once more, with half of their columns end kinds. */
static const enum sized_job with_8_ends[] = {JOB_LONG_FAILURE, JOB_AT_ONCE, JOB_RANDOM_FAILURE, JOB_ACCEPTED,
                                             JOB_RANDOM,       JOB_WALK,    JOB_WORK,           JOB_RIVALS};

static void print_check(const char *class, const struct subject *subject)
{
    double best[CHECK_SIDES], to_better;
    uint64_t answer = measure_check(subject, best, &to_better);
    print_measured(class, subject, best, to_better);
    print_answer(call_check, subject, answer);
}

void print_checks(void)
{
    static struct subject subject;
    printf("\nthe check, and its ratios to C that remembers, to C that walks, and to the better of the two\n\n");
    print_title("class");
    example_subject(&subject);
    print_check("small domain", &subject);
    for (size_t i = 0; i < sizeof bench / sizeof *bench; i++) {
        bench_subject(&subject, bench[i].name, bench[i].variant);
        print_check("small domain", &subject);
    }
    for (size_t i = 0; i < sizeof sized / sizeof *sized; i++) {
        sized_subject(&subject, sized[i].which, sized[i].size);
        print_check(sized[i].class, &subject);
    }
    steps_subject(&subject);
    print_check("long walks", &subject);
    for (size_t i = 0; i < sizeof with_8_ends / sizeof *with_8_ends; i++) {
        sized_subject(&subject, with_8_ends[i], FULL_8_ENDS);
        print_check("8 end kinds", &subject);
    }
}

/* ---- Up to a number of lamps ---- */

/* The first job fails after 3,585 lamps, so the search is over at once, soon, half way and at its end; the others are right. */
static const struct {
    enum sized_job which;
    enum size size;
    uint16_t longest;
} up_to[] = {
    {JOB_LONG_FAILURE, FULL, 0}, {JOB_LONG_FAILURE, FULL, 1}, {JOB_LONG_FAILURE, FULL, 1792}, {JOB_LONG_FAILURE, FULL, 65535},
    {JOB_RANDOM, FULL, 3},       {JOB_RANDOM, FULL, 65535},   {JOB_RANDOM, FULL_8_ENDS, 3},
};

static void print_check_up_to(struct subject *subject, uint16_t longest)
{
    double best[CHECK_SIDES], to_better;
    char first[14];
    subject->longest = longest;
    uint64_t answer = measure_forms(call_check_up_to, subject, best, &to_better);
    snprintf(first, sizeof first, "%d", longest);
    print_measured(first, subject, best, to_better);
    print_answer(call_check_up_to, subject, answer);
    note(&furthest_behind_up_to, to_better, subject);
}

void print_checks_up_to(void)
{
    static struct subject subject;
    printf("\nthe check up to a number of lamps, and the same ratios\n\n");
    print_title("longest");
    bench_subject(&subject, "bench_g", BENCH_G);
    print_check_up_to(&subject, 0);
    print_check_up_to(&subject, NESSFLURRY_MAX_LAMPS);
    for (size_t i = 0; i < sizeof up_to / sizeof *up_to; i++) {
        sized_subject(&subject, up_to[i].which, up_to[i].size);
        print_check_up_to(&subject, up_to[i].longest);
    }
}

/* ---- Growth ---- */

static void print_growth_at(enum growing growing, int worlds, int states, int kinds)
{
    static struct subject subject;
    double best[CHECK_SIDES], to_better;
    growing_subject(&subject, growing, (uint8_t)worlds, (uint8_t)states, (uint8_t)kinds);
    uint64_t answer = measure_check(&subject, best, &to_better);
    printf("%-12s%4d%4d%4d%8" PRIu32 "%14.1f%14.1f%14.1f%9.3f\n", growing_names[growing], worlds, states, kinds,
           nessflurry_pairs_of(answer), best[NESSFLURRY] / 1e3, best[REMEMBERING] / 1e3, best[PLAIN] / 1e3, to_better);
    fflush(stdout);
}

void print_growth(void)
{
    printf("\nhow the check's time grows, in microseconds a call; the ratio is nessflurry / the better of the two in C\n\n");
    printf("%-12s%4s%4s%4s%8s%14s%14s%14s%9s\n", "jobs with", "W", "S", "C", "pairs", "nessflurry", "C remembers", "C walks",
           "/ better");
    for (enum growing growing = LONG_WALKS; growing < GROWING; growing++) {
        for (int worlds = 8; worlds <= 64; worlds *= 2)
            print_growth_at(growing, worlds, MOST_STATES, MOST_KINDS);
        for (int states = 8; states <= 64; states *= 2)
            print_growth_at(growing, MOST_WORLDS, states, MOST_KINDS);
        for (int columns = 2; columns <= 16; columns *= 2)
            print_growth_at(growing, MOST_WORLDS, MOST_STATES, columns - 1);
    }
}

void print_extremes(void)
{
    printf("\nthe check at its worst takes %.3f times as long as the better of the two in C (%s);\n"
           "at its best it is %.1f times as fast as C that walks (%s);\n"
           "up to a number of lamps it takes at its worst %.3f times as long as the better of the two (%s)\n",
           furthest_behind.figure, furthest_behind.name, furthest_ahead.figure, furthest_ahead.name,
           furthest_behind_up_to.figure, furthest_behind_up_to.name);
}
