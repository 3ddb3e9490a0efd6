/*
 * Line ends of several kinds (02, (c)): a job of three, with each of its numbers at its edges, and jobs of as many columns as there
 * may be. Each check also stands against all lines.
 */
#include "brute.h"
#include "cases.h"

static const uint8_t line[] = {1, 2};

/* ---- Three end kinds: actions 0 look, 1 next, 2 seal, 3 set the fuse ---- */

static void three_ends(void)
{
    const uint16_t numbers[NESSFLURRY_HEAD_SIZE] = {4, 3, 2, 4, 4, 0, 2, 28, 4, 32, 120, 152, 3, 155, 15, 170, 20};
    uint16_t head[NESSFLURRY_HEAD_SIZE];
    take_three_ends();
    expect("size of three ends", file.size, 190);
    expect("the reader on three ends", plain_read(file.bytes, file.size, head), ending(NESSFLURRY_DONE, 0));
    expect("the reader's numbers of three ends", memcmp(head, numbers, sizeof head) == 0, true);
    expect("three ends", expect_as_brute(), ending(NESSFLURRY_ACCEPTED, 1));
    expect_run("no lamp, a cap", line, 0, CAP, UINT32_MAX, ending(NESSFLURRY_GOAL, 1));
    expect_run("no lamp, a joint box", line, 0, JOINT_BOX, UINT32_MAX, ending(NESSFLURRY_GOAL, 2));
    expect_run("two lamps, a cap", line, 2, CAP, UINT32_MAX, ending(NESSFLURRY_GOAL, 5));
    expect_run("two lamps, a fuse box", line, 2, FUSE_BOX, UINT32_MAX, ending(NESSFLURRY_GOAL, 6));
    expect_run("two lamps, a fuse box, limit 5", line, 2, FUSE_BOX, 5, ending(NESSFLURRY_STOPPED, 5));
}

/* Failures at one end kind, on the empty line; and one at a lamp, which comes with every end kind and is told with the lowest. */
static void three_ends_failing(void)
{
    take_three_ends();
    job.target[0][JOINT_BOX] = NONE;
    write_job();
    expect_failed_as_brute("no branch for a joint box", failing(NESSFLURRY_NO_BRANCH, 0, 0, JOINT_BOX), line);
    job.target[0][JOINT_BOX] = 3;
    write_job();
    expect_failed_as_brute("a fuse set in a joint box", failing(NESSFLURRY_NOT_LEGAL, 0, 0, JOINT_BOX), line);
    take_three_ends();
    job.target[0][FUSE_BOX] = 0;
    write_job();
    expect_failed_as_brute("a fuse box looked at for ever", failing(NESSFLURRY_CIRCLES, 0, 0, FUSE_BOX), line);
    job.target[0][FUSE_BOX] = 4;
    write_job();
    expect_failed_as_brute("a fuse not set", failing(NESSFLURRY_GOAL_FALSE, 0, 0, FUSE_BOX), line);
    take_three_ends();
    job.cells[1][0][THREE_ENDS - 1 + 2] = (struct cell){0, NONE};
    write_job();
    expect_failed_as_brute("kind 2 cannot be passed", failing(NESSFLURRY_NOT_LEGAL, 0, 1, CAP), line + 1);
    expect_run("kind 2 cannot be passed, a fuse box", line + 1, 1, FUSE_BOX, 9, ending(NESSFLURRY_NOT_LEGAL, 1));
}

/* Whether the run comes to the line's end or not. */
static void no_such_end(void)
{
    take_three_ends();
    for (unsigned end = THREE_ENDS; end <= 255; end++)
        expect_run("an end kind not below E", line, 2, (uint8_t)end, 9, refused(15));
    expect_run("an end kind not below E, and no step allowed", line, 2, THREE_ENDS, 0, refused(15));
    job.cells[1][0][THREE_ENDS - 1 + 1] = (struct cell){0, NONE};
    write_job();
    expect_run("an end kind not below E, and kind 1 cannot be passed", line, 2, THREE_ENDS, 9, refused(15));
}

/* No lamp is of kind 0, whose column would be that of the highest end kind. */
static void no_such_kind(void)
{
    const uint8_t kind_0[] = {1, 0}, kind_3[] = {3};
    take_three_ends();
    expect_run("kind 0 of two", kind_0 + 1, 1, CAP, 9, refused(15));
    expect_run("kind 0 of two after kind 1", kind_0, 2, CAP, 9, refused(15));
    expect_run("kind 3 of two", kind_3, 1, CAP, 9, refused(15));
}

static void walks_at_edges(void)
{
    take_three_ends();
    expect("walk, column E + C", plain_walk(file.bytes, file.size, 0, 0, THREE_ENDS + 2), refused(15));
    expect("walk, column E + C - 1", plain_walk(file.bytes, file.size, 0, 0, THREE_ENDS - 1 + 2), ending(NESSFLURRY_ARRIVED, 2));
    expect("walk, column E - 1", plain_walk(file.bytes, file.size, 0, 0, FUSE_BOX), ending(NESSFLURRY_GOAL, 2));
}

/* Moving on is legal once at an end. */
static void take_passed_end(uint8_t world, uint8_t end)
{
    take_three_ends();
    job.cells[1][world][end] = (struct cell){0, 0};
    write_job();
}

static void ends_passed(void)
{
    for (uint8_t world = 0; world < 3; world++)
        for (uint8_t end = 0; end < THREE_ENDS; end++) {
            take_passed_end(world, end);
            expect_refused_file("an end passed", 7);
        }
    take_passed_end(0, FUSE_BOX);
    file.bytes[151] = 4;
    expect_refused_file("an end passed, and the last cell's result not below R", 6);
}

/* It is told the end by the result alone. */
static void three_ends_cabinet(void)
{
    take_three_ends();
    expect("begin before an end", plain_begin(file.bytes, file.size, 0), cabinet(0, 0, 0));
    expect("a fuse box", plain_report(file.bytes, file.size, 0, 0, FUSE_BOX), cabinet(0, 3, 0));
    expect("the action for it", plain_action(file.bytes, file.size, 3, 0), cabinet(0, 3, 0));
    expect("the fuse set", plain_report(file.bytes, file.size, 3, 0, 0), cabinet(0, 4, 0));
    expect("an end passed by a cabinet", plain_report(file.bytes, file.size, 1, 0, 0), cabinet(19, 1, 0));
}

/* Its file with one byte changed, in lengths and in the last cell and goal: place, byte, refusal. */
static void three_ends_damaged(void)
{
    static const uint8_t one_defect[][3] = {
        {14, 119, 4}, {14, 118, 4}, {14, 72, 4}, {22, 14, 4}, {22, 9, 4}, {150, 1, 6}, {151, 4, 6}, {169, 2, 9},
    };
    for (size_t i = 0; i < sizeof one_defect / sizeof one_defect[0]; i++) {
        take_three_ends();
        file.bytes[one_defect[i][0]] = one_defect[i][1];
        expect_refused_file("three ends with a byte changed", one_defect[i][2]);
    }
}

/* The last end kind, byte 6, and C, byte 2, with the lengths of three end kinds and two lamp kinds. */
static void expect_refused_columns(uint8_t last_end, uint8_t kinds, unsigned refusal)
{
    take_three_ends();
    file.bytes[6] = last_end;
    file.bytes[2] = kinds;
    expect_refused_file("other numbers of columns", refusal);
}

static void columns(void)
{
    for (unsigned last_end = 14; last_end <= 255; last_end++)
        expect_refused_columns((uint8_t)last_end, 2, 2);
    for (uint8_t last_end = 0; last_end <= 13; last_end++)
        if (last_end != FUSE_BOX)
            expect_refused_columns(last_end, 2, 4);
    expect_refused_columns(15, 1, 2);
    expect_refused_columns(14, 1, 4);
    expect_refused_columns(1, 15, 2);
    expect_refused_columns(0, 15, 4);
    expect_refused_columns(0, 16, 2);
    expect_refused_columns(2, 14, 2);
    expect_refused_columns(2, 13, 4);
    expect_refused_columns(3, 1, 7); /* as many columns: kind 1 becomes an end, where next is legal */
    expect_refused_columns(4, 0, 2); /* as many columns, all of them ends */
    expect_refused_columns(15, 0, 2);
}

/* ---- As many columns as there may be ---- */

/* Every end kind alone. */
static void each_end(void)
{
    for (uint8_t ends = 1; ends <= MOST_ENDS; ends++)
        for (uint8_t end = 0; end < ends; end++) {
            uint8_t goal[MOST_COLUMNS];
            memset(goal, 1, sizeof goal);
            goal[end] = 0;
            take_final(1, MOST_COLUMNS - ends, ends, goal);
            expect_failed_as_brute("one end kind of many", failing(NESSFLURRY_GOAL_FALSE, 0, 0, end), line);
        }
}

/* The lamp of the highest kind alone: its column is the last. */
static void highest_kind(void)
{
    for (uint8_t ends = 1; ends <= MOST_ENDS; ends++) {
        const uint8_t kind = MOST_COLUMNS - ends;
        uint8_t goal[MOST_COLUMNS];
        memset(goal, 1, sizeof goal);
        goal[MOST_COLUMNS - 1] = 0;
        take_final(1, kind, ends, goal);
        expect_failed_as_brute("the highest kind of many", failing(NESSFLURRY_GOAL_FALSE, 0, 1, 0), &kind);
    }
}

/* One action, which moves on, and is legal in this column alone. */
static void take_moving(uint8_t ends, uint8_t legal)
{
    job = (struct job){.actions = 1, .worlds = 1, .kinds = MOST_COLUMNS - ends, .results = 1, .last_end = ends - 1};
    clear_tables(&job);
    job.marks[0] = job.starts[0] = 1;
    job.cells[0][0][legal] = (struct cell){0, 0};
    write_job();
}

static void each_end_passed(void)
{
    for (uint8_t ends = 1; ends <= MOST_ENDS; ends++) {
        for (uint8_t end = 0; end < ends; end++) {
            take_moving(ends, end);
            expect_refused_file("one end kind of many passed", 7);
        }
        take_moving(ends, ends);
        expect("only kind 1 passed", plain_begin(file.bytes, file.size, 1), cabinet(0, 0, 1));
    }
}

void end_kind_cases(void)
{
    three_ends();
    three_ends_failing();
    three_ends_cabinet();
    no_such_end();
    no_such_kind();
    walks_at_edges();
    ends_passed();
    three_ends_damaged();
    columns();
    each_end();
    highest_kind();
    each_end_passed();
}
