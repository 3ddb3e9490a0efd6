/* Each refusal, and the lowest number where several apply (01, Who can cause which number). */
#include "cases.h"
#include "job_files/damage.h"

#include <stdio.h>

/* Bench line G with one byte changed: place, byte, refusal. */
static const uint8_t one_defect[][3] = {
    {0, 0, 2}, {0, 17, 2}, {1, 0, 2}, {1, 65, 2}, {2, 0, 2}, {2, 16, 2}, {3, 0, 2}, {3, 9, 2}, {4, 65, 2}, {5, 5, 2},
    {6, 14, 2}, {6, 16, 2}, {6, 255, 2}, {7, 1, 2},
    {8, 27, 3}, {10, 5, 3}, {12, 31, 3}, {24, 0, 3}, {26, 13, 3}, {27, 255, 3},
    {2, 1, 4}, {4, 3, 4}, {6, 1, 4}, {6, 13, 4}, {10, 3, 4}, {26, 0, 4}, {26, 11, 4},
    {28, 2, 5}, {31, 255, 5},
    {32, 3, 6}, {33, 2, 6}, {33, 254, 6}, {68, 1, 6}, {103, 8, 6},
    {69, 0, 7}, {81, 1, 7},
    {104, 0, 8}, {105, 2, 8}, {106, 255, 8},
    {107, 2, 9}, {115, 255, 9},
    {116, 4, 10}, {125, 255, 10},
    {117, 5, 11}, {127, 254, 11},
};

/* Two bytes changed, the first for the higher number, and the lower one: place, byte, place, byte, refusal. */
static const uint8_t two_defects[][5] = {
    {12, 31, 4, 65, 2}, {10, 3, 26, 13, 3}, {28, 2, 10, 3, 4}, {32, 3, 31, 2, 5}, {69, 0, 103, 8, 6}, {104, 2, 81, 1, 7},
    {107, 2, 106, 2, 8}, {116, 4, 115, 2, 9}, {117, 5, 125, 4, 10},
};

static void defects(void)
{
    char what[40];
    for (size_t i = 0; i < sizeof one_defect / sizeof one_defect[0]; i++) {
        const uint8_t *const defect = one_defect[i];
        take_bench(BENCH_G);
        file.bytes[defect[0]] = defect[1];
        snprintf(what, sizeof what, "G with byte %u being %u", defect[0], defect[1]);
        expect_refused_file(what, defect[2]);
    }
    for (size_t i = 0; i < sizeof two_defects / sizeof two_defects[0]; i++) {
        const uint8_t *const defect = two_defects[i];
        take_bench(BENCH_G);
        file.bytes[defect[0]] = defect[1];
        file.bytes[defect[2]] = defect[3];
        snprintf(what, sizeof what, "G with bytes %u and %u wrong", defect[0], defect[2]);
        expect_refused_file(what, defect[4]);
    }
}

static void take_g_of(size_t size)
{
    struct random more_bytes = {size};
    take_bench(BENCH_G);
    resize(&file, size, &more_bytes);
}

static void file_sizes(void)
{
    take_g_of(0);
    expect_refused_file("no bytes", 1);
    take_g_of(27);
    expect_refused_file("27 bytes", 1);
    take_g_of(65536);
    expect_refused_file("65,536 bytes", 1);
    take_g_of(127);
    expect_refused_file("127 bytes", 3);
    take_g_of(65535);
    expect("65,535 bytes", check(), ending(NESSFLURRY_ACCEPTED, 1));
}

static void runs_and_walks(void)
{
    static uint8_t long_line[65536];
    take_bench(BENCH_G);
    memset(long_line, 1, sizeof long_line);
    const uint8_t kind_0[] = {1, 0}, kind_3[] = {1, 3};
    expect("start not marked", plain_run(file.bytes, file.size, 1, kind_0, 2, 1, 0), refused(14));
    expect("start not below W", plain_run(file.bytes, file.size, 3, kind_0, 1, 0, 0), refused(14));
    expect_run("kind 0", kind_0, 2, 0, 0, refused(15));
    expect_run("kind 3", kind_3, 2, 0, 0, refused(15));
    expect_run("end kind 1 of one", kind_0, 1, 1, 9, refused(15));
    expect_run("end kind 255 of one", kind_0, 0, 255, 9, refused(15));
    expect_run("65,536 lamps", long_line, 65536, 0, 9, refused(15));
    expect_run("65,535 lamps", long_line, 65535, 0, UINT32_MAX, ending(NESSFLURRY_GOAL, 3 * 65535 + 1));
    expect("walk, world not below W", plain_walk(file.bytes, file.size, 5, 3, 3), refused(14));
    expect("walk, no such column", plain_walk(file.bytes, file.size, 5, 1, 3), refused(15));
    expect("walk, state above S", plain_walk(file.bytes, file.size, 5, 1, 2), refused(16));
    expect("walk, world not marked", plain_walk(file.bytes, file.size, 3, 1, 2), ending(NESSFLURRY_ARRIVED, 1));
    expect("walk, spoilt", plain_walk(file.bytes, file.size, 1, 2, 1), ending(NESSFLURRY_ARRIVED, 2) | (uint64_t)2 << 24);
}

static void cabinets(void)
{
    take_bench(BENCH_G);
    expect("action of state 3", plain_action(file.bytes, file.size, 3, 0), cabinet(0, 2, 0));
    expect("action of state 4", plain_action(file.bytes, file.size, 4, 7), ending(NESSFLURRY_ENDED, 0));
    expect("action of state 5", plain_action(file.bytes, file.size, 5, 0), refused(16));
    expect("report in state 5", plain_report(file.bytes, file.size, 5, 1, 9), cabinet(16, 5, 1));
    expect("report after the end", plain_report(file.bytes, file.size, 4, 5, 9), cabinet(17, 4, 5));
    expect("report without branch", plain_report(file.bytes, file.size, 3, 0, 1), cabinet(18, 3, 0));
    expect("report not below R", plain_report(file.bytes, file.size, 3, 0, 7), cabinet(18, 3, 0));
    expect("report with no lamp left", plain_report(file.bytes, file.size, 3, 0, 0), cabinet(19, 3, 0));
    expect("report at the line's end", plain_report(file.bytes, file.size, 0, 0, 1), cabinet(0, 1, 0));
}

/* One action that circles, as every cell and target is 0; the goal is true everywhere, the highest world is the start. */
static void take_circling(uint8_t worlds, uint8_t states)
{
    job = (struct job){.actions = 1, .worlds = worlds, .kinds = 1, .results = 1, .states = states};
    job.starts[worlds - 1] = 1;
    memset(job.goal, 1, sizeof job.goal);
    write_job();
}

/* Without non-final states nothing circles. 65 bits need two words. */
static void buffers(void)
{
    take_circling(64, 0);
    expect("64 pairs, one word", check_with((struct sizes){1, 64, 1}), ending(NESSFLURRY_ACCEPTED, 1));
    expect_refused_check("64 pairs, no word", (struct sizes){1, 64, 0}, 13);
    expect_refused_check("64 pairs, list of 63", (struct sizes){1, 63, 1}, 13);
    expect_refused_check("64 pairs, no line, no word", (struct sizes){0, 64, 0}, 12);
    take_circling(13, 4);
    expect("65 pairs, two words", check_with((struct sizes){53, 65, 2}), failing(NESSFLURRY_CIRCLES, 12, 0, 0));
    expect_refused_check("65 pairs, one word", (struct sizes){53, 65, 1}, 13);
    take_circling(64, 64);
    expect("4,160 pairs, 65 words", check_with((struct sizes){4097, 4160, 65}), failing(NESSFLURRY_CIRCLES, 63, 0, 0));
    expect_refused_check("4,160 pairs, 64 words", (struct sizes){4097, 4160, 64}, 13);
    expect_refused_check("4,160 pairs, list of 4,159", (struct sizes){4097, 4159, 65}, 13);
    expect_refused_check("4,160 pairs, line of 4,096", (struct sizes){4096, 4160, 65}, 12);
}

void refusal_cases(void)
{
    defects();
    file_sizes();
    runs_and_walks();
    cabinets();
    buffers();
}
