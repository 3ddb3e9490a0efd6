/*
 * The order of failing lines (01, The check; 02, (c) and (f)), on jobs of which another order would name another line or start.
 * Each check also stands against all lines.
 */
#include "brute.h"
#include "cases.h"
#include "job_files/rivals.h"

#include <stdio.h>

static const uint8_t line[] = {1, 2};

/* ---- Lamps, kinds and end kinds ---- */

/* Where the end kind were compared before the lamps, a line with end kind 0 would come first. */
static void lamps_first(void)
{
    const uint8_t higher[] = {1, 0, 1}, shorter[] = {1, 0, 0}, both[] = {0, 0, 1};
    take_final(1, 1, 2, higher);
    expect_failed_as_brute("end kind 1 alone", failing(NESSFLURRY_GOAL_FALSE, 0, 0, 1), line);
    take_final(1, 1, 2, shorter);
    expect_failed_as_brute("end kind 1, or a lamp", failing(NESSFLURRY_GOAL_FALSE, 0, 0, 1), line);
    take_final(1, 1, 2, both);
    expect_failed_as_brute("both end kinds", failing(NESSFLURRY_GOAL_FALSE, 0, 0, 0), line);
}

/* State 0 looks, and ends the plan at an end; state 1 moves on, which makes the lamp's kind the world. */
static void take_kinds_as_worlds(void)
{
    job = (struct job){.actions = 2, .worlds = 3, .kinds = 2, .results = 2, .states = 2, .last_end = 1};
    job.marks[1] = job.starts[0] = 1;
    memset(job.goal, 1, sizeof job.goal);
    for (uint8_t world = 0; world < 3; world++)
        for (uint8_t column = 0; column < columns_of(&job); column++) {
            const bool end = is_end(&job, column);
            job.cells[0][world][column] = (struct cell){world, !end};
            job.cells[1][world][column] = end ? (struct cell){0, NONE} : (struct cell){column - job.last_end, 0};
        }
    job.target[0][0] = 2;
    job.target[0][1] = job.action[1] = 1;
    job.target[1][1] = NONE;
}

/* Where the end kind were compared before the kinds, kind 2 would come first. */
static void kinds_before_ends(void)
{
    take_kinds_as_worlds();
    job.goal[1][1] = job.goal[2][0] = 0;
    write_job();
    expect_failed_as_brute("kind 1 with end kind 1, kind 2 with 0", failing(NESSFLURRY_GOAL_FALSE, 0, 1, 1), line);
    expect_run("kind 1 with end kind 0", line, 1, 0, 9, ending(NESSFLURRY_GOAL, 3));
    take_kinds_as_worlds();
    job.goal[2][0] = job.goal[2][1] = 0;
    write_job();
    expect_failed_as_brute("kind 2 with both end kinds", failing(NESSFLURRY_GOAL_FALSE, 0, 1, 0), line + 1);
}

/* ---- Starts last ---- */

/* Without a state but the final one: the bytes are the goal of start 0 and that of start 1. */
static void starts_of_final(void)
{
    const uint8_t kinds[] = {1, 1, 0, 1, 0, 1}, kinds_mirrored[] = {1, 0, 1, 1, 1, 0};
    const uint8_t ends[] = {1, 0, 1, 0, 1, 1}, ends_mirrored[] = {0, 1, 1, 1, 0, 1}, same_end[] = {1, 0, 1, 1, 0, 1};
    take_final(2, 2, 1, kinds);
    expect_failed_as_brute("start 0 with kind 2, start 1 with 1", failing(NESSFLURRY_GOAL_FALSE, 1, 1, 0), line);
    take_final(2, 2, 1, kinds_mirrored);
    expect_failed_as_brute("start 0 with kind 1, start 1 with 2", failing(NESSFLURRY_GOAL_FALSE, 0, 1, 0), line);
    take_final(2, 1, 2, ends);
    expect_failed_as_brute("start 0 with end kind 1, start 1 with 0", failing(NESSFLURRY_GOAL_FALSE, 1, 0, 0), line);
    take_final(2, 1, 2, ends_mirrored);
    expect_failed_as_brute("start 0 with end kind 0, start 1 with 1", failing(NESSFLURRY_GOAL_FALSE, 0, 0, 0), line);
    take_final(2, 1, 2, same_end);
    expect_failed_as_brute("both starts with end kind 1", failing(NESSFLURRY_GOAL_FALSE, 0, 0, 1), line);
}

/* What is told of two rivals, as they are listed and mirrored. Rival 0 fails by the goal, and rival 1 as its look is not legal. */
static const struct {
    uint8_t failure, start, lamps, line[3], end;
} told[KNOWN_RIVALS][2] = {
    [RIVALS_KIND] = {{NESSFLURRY_NOT_LEGAL, 1, 1, {1}, 0}, {NESSFLURRY_GOAL_FALSE, 0, 1, {1}, 0}},
    [RIVALS_FIRST_KIND] = {{NESSFLURRY_NOT_LEGAL, 1, 2, {1, 2}, 0}, {NESSFLURRY_GOAL_FALSE, 0, 2, {1, 2}, 0}},
    [RIVALS_LAST_KIND] = {{NESSFLURRY_NOT_LEGAL, 1, 2, {1, 1}, 0}, {NESSFLURRY_GOAL_FALSE, 0, 2, {1, 1}, 0}},
    [RIVALS_SAME_MIDDLE] = {{NESSFLURRY_NOT_LEGAL, 1, 3, {1, 1, 2}, 0}, {NESSFLURRY_GOAL_FALSE, 0, 3, {1, 1, 2}, 0}},
    [RIVALS_KIND_OR_END] = {{NESSFLURRY_NOT_LEGAL, 1, 1, {1}, 1}, {NESSFLURRY_GOAL_FALSE, 0, 1, {1}, 1}},
    [RIVALS_KIND_OR_LAMP] = {{NESSFLURRY_NOT_LEGAL, 1, 1, {1}, 1}, {NESSFLURRY_GOAL_FALSE, 0, 1, {1}, 1}},
    [RIVALS_END] = {{NESSFLURRY_NOT_LEGAL, 1, 0, {0}, 0}, {NESSFLURRY_GOAL_FALSE, 0, 0, {0}, 0}},
    [RIVALS_LONG_END] = {{NESSFLURRY_NOT_LEGAL, 1, 2, {1, 2}, 0}, {NESSFLURRY_GOAL_FALSE, 0, 2, {1, 2}, 0}},
    [RIVALS_TWO_ENDS] = {{NESSFLURRY_NOT_LEGAL, 1, 1, {1}, 0}, {NESSFLURRY_GOAL_FALSE, 0, 1, {1}, 0}},
    [RIVALS_LAMP] = {{NESSFLURRY_NOT_LEGAL, 1, 1, {1}, 0}, {NESSFLURRY_GOAL_FALSE, 0, 1, {1}, 0}},
    [RIVALS_LONG_LAMP] = {{NESSFLURRY_NOT_LEGAL, 1, 2, {1, 2}, 0}, {NESSFLURRY_GOAL_FALSE, 0, 2, {1, 2}, 0}},
    [RIVALS_END_0_OR_LAMP] = {{NESSFLURRY_GOAL_FALSE, 0, 1, {1}, 0}, {NESSFLURRY_GOAL_FALSE, 0, 1, {1}, 0}},
    [RIVALS_SAME_END] = {{NESSFLURRY_GOAL_FALSE, 0, 1, {1}, 1}, {NESSFLURRY_GOAL_FALSE, 0, 1, {1}, 1}},
    [RIVALS_SAME_LAMP] = {{NESSFLURRY_GOAL_FALSE, 0, 1, {1}, 0}, {NESSFLURRY_GOAL_FALSE, 0, 1, {1}, 0}},
    [RIVALS_JOINED] = {{NESSFLURRY_GOAL_FALSE, 0, 1, {1}, 1}, {NESSFLURRY_NOT_LEGAL, 0, 1, {1}, 1}},
    [RIVALS_LONG_JOINED] = {{NESSFLURRY_GOAL_FALSE, 0, 2, {1, 1}, 1}, {NESSFLURRY_NOT_LEGAL, 0, 2, {1, 1}, 1}},
    [RIVALS_JOINED_APART] = {{NESSFLURRY_GOAL_FALSE, 1, 2, {1, 1}, 1}, {NESSFLURRY_NOT_LEGAL, 0, 2, {1, 1}, 1}},
};

static void two_rivals(void)
{
    char what[40];
    for (enum known_rivals which = 0; which < KNOWN_RIVALS; which++)
        for (int mirrored = 0; mirrored < 2; mirrored++) {
            known_rivals(&job, which, mirrored);
            write_job();
            snprintf(what, sizeof what, "rivals %d%s", (int)which, mirrored ? ", mirrored" : "");
            expect_failed_as_brute(what,
                                   failing(told[which][mirrored].failure, told[which][mirrored].start,
                                           told[which][mirrored].lamps, told[which][mirrored].end),
                                   told[which][mirrored].line);
        }
}

void order_cases(void)
{
    lamps_first();
    kinds_before_ends();
    starts_of_final();
    two_rivals();
}
