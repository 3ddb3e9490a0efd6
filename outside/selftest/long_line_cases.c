/* Jobs of the largest numbers, whose pairs are reached on lines of up to 3,584 lamps. */
#include "cases.h"
#include "job_files/families.h"

enum { LOOKING = 7, COUNTED = 8 * LOOKING * MOST_WORLDS }; /* 8 groups of 7 states that look, each in every world */

/* Kind k becomes kind C + 1 - k: counting jobs look for the lowest kinds, and here the highest are to be in the line. */
static void turn_kinds_round(struct cell cells[MOST_COLUMNS])
{
    for (unsigned low = ends_of(&job), high = columns_of(&job) - 1u; low < high; low++, high--) {
        const struct cell cell = cells[low];
        cells[low] = cells[high];
        cells[high] = cell;
    }
}

/* With this number of end kinds, and as many lamp kinds as there is room for beside them. */
static void make_counting(uint8_t last, uint8_t ends)
{
    largest_numbers(&job);
    job.last_end = ends - 1;
    job.kinds = MOST_COLUMNS - ends;
    counting_job(&job, last);
    for (unsigned action = 0; action < job.actions; action++)
        for (unsigned world = 0; world < job.worlds; world++)
            turn_kinds_round(job.cells[action][world]);
}

static void take_counting(uint8_t last)
{
    make_counting(last, 1);
    write_job();
}

/* The line on which each pair is reached with one more lamp: the states of a group look for kinds C, C - 1, ... C - 6. */
static void expect_counting_line(void)
{
    for (unsigned lamp = 0; lamp < COUNTED; lamp++)
        expect("a lamp of the counting line", lent.line[lamp], job.kinds - lamp / MOST_WORLDS % LOOKING);
}

/* The failure comes with its last lamp, and not with fewer. */
static void expect_up_to(uint64_t failed)
{
    const uint16_t lamps = nessflurry_lamps_of(failed), fewer[] = {0, 1, 255, 256, 257, (uint16_t)(lamps - 1)};
    for (size_t i = 0; i < sizeof fewer / sizeof *fewer; i++)
        expect("a long line, up to fewer lamps", check_up_to(fewer[i]), ending(NESSFLURRY_NONE_UP_TO, fewer[i]));
    expect("a long line, up to the most lamps", check_up_to(NESSFLURRY_MAX_LAMPS), failed);
    expect_counting_line();
    expect("a long line, up to its lamps", check_up_to(lamps), failed);
    expect_counting_line();
}

/*
 * Counting ends in world 0, without a look at the end: there the goal is false at the highest of eight end kinds, an odd one, and
 * only the whole line comes to it like this.
 */
static void long_line_to_an_odd_end(void)
{
    enum { ENDS = 8, ODD = ENDS - 1, EVEN = ODD - 1 };
    make_counting(MOST_STATES, ENDS);
    job.goal[0][ODD] = 0;
    write_job();
    expect("counting that ends at end kind 7", check(), failing(NESSFLURRY_GOAL_FALSE, 0, COUNTED, ODD));
    expect_counting_line();
    expect_run("counting to end kind 7", lent.line, COUNTED, ODD, UINT32_MAX, ending(NESSFLURRY_GOAL_FALSE, 2 * COUNTED));
    expect_run("counting to end kind 6", lent.line, COUNTED, EVEN, UINT32_MAX, ending(NESSFLURRY_GOAL, 2 * COUNTED));
    expect_run("a lamp fewer to end kind 7", lent.line, COUNTED - 1, ODD, UINT32_MAX, ending(NESSFLURRY_GOAL, 2 * COUNTED));
    expect_run("a lamp fewer to end kind 6", lent.line, COUNTED - 1, EVEN, UINT32_MAX, ending(NESSFLURRY_GOAL, 2 * COUNTED - 1));
    expect_up_to(failing(NESSFLURRY_GOAL_FALSE, 0, COUNTED, ODD));
}

/* From the last of these pairs one more such lamp decides. */
void long_line_cases(void)
{
    take_counting(NONE);
    expect("counting without a last branch", check(), failing(NESSFLURRY_NO_BRANCH, 0, COUNTED, 0));
    expect_counting_line();
    expect_run("the counting line", lent.line, COUNTED, 0, UINT32_MAX, ending(NESSFLURRY_NO_BRANCH, 2 * COUNTED - 1));
    expect_up_to(failing(NESSFLURRY_NO_BRANCH, 0, COUNTED, 0));
    take_counting(MOST_STATES);
    expect("counting that ends before a lamp", check(), failing(NESSFLURRY_GOAL_FALSE, 0, COUNTED + 1, 0));
    expect_counting_line();
    expect_up_to(failing(NESSFLURRY_GOAL_FALSE, 0, COUNTED + 1, 0));
    memset(job.goal, 1, sizeof job.goal);
    write_job();
    expect("counting that ends", check(), ending(NESSFLURRY_ACCEPTED, COUNTED + 1));
    take_counting(0);
    expect("counting that begins anew", check(), ending(NESSFLURRY_ACCEPTED, COUNTED));
    long_line_to_an_odd_end();
}
