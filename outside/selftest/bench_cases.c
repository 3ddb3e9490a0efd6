/* Bench line G and its variants, with every answer that 01, Bench line G, lists; each check also against all lines. */
#include "brute.h"
#include "cases.h"

static void expect_accepted(const char *what, enum bench_variant variant, uint32_t pairs)
{
    take_bench(variant);
    expect(what, expect_as_brute(), ending(NESSFLURRY_ACCEPTED, pairs));
}

static void expect_failed(const char *what, enum bench_variant variant, unsigned kind, const uint8_t *line, uint32_t lamps,
                          uint32_t steps)
{
    take_bench(variant);
    expect(what, expect_as_brute(), failing(kind, 0, lamps, 0));
    expect(what, memcmp(lent.line, line, lamps) == 0, true);
    expect_run(what, lent.line, lamps, 0, steps, ending(kind, steps));
}

static void runs(void)
{
    const uint8_t sound[] = {1}, faulty[] = {2}, both[] = {1, 2};
    take_bench(BENCH_G);
    expect_run("G, empty line", sound, 0, 0, UINT32_MAX, ending(NESSFLURRY_GOAL, 1));
    expect_run("G, [1]", sound, 1, 0, 4, ending(NESSFLURRY_GOAL, 4));
    expect_run("G, [1], limit 3", sound, 1, 0, 3, ending(NESSFLURRY_STOPPED, 3));
    expect_run("G, [2]", faulty, 1, 0, UINT32_MAX, ending(NESSFLURRY_GOAL, 5));
    expect_run("G, [1,2]", both, 2, 0, UINT32_MAX, ending(NESSFLURRY_GOAL, 8));
    take_bench(BENCH_ENDS_AT_ONCE);
    expect_run("first state 4, empty line", sound, 0, 0, 0, ending(NESSFLURRY_GOAL, 0));
}

static void checks(void)
{
    const uint8_t sound[] = {1, 1}, faulty[] = {2};
    expect_accepted("G", BENCH_G, 1);
    expect_failed("state 1 to 3,3", BENCH_TEST_UNHEEDED, 4, faulty, 1, 4);
    expect_failed("state 0 to 4,0", BENCH_PEEK_FOR_EVER, 3, sound, 1, 12);
    expect_failed("state 0 to none,1", BENCH_END_UNFORESEEN, 2, sound, 0, 0);
    expect_failed("first state 4", BENCH_ENDS_AT_ONCE, 4, sound, 1, 0);
    expect_failed("first state 1", BENCH_FIRST_TEST, 1, sound, 0, 0);
    expect_failed("G with five states", BENCH_FIVE_STATES, 2, sound, 2, 3);
    expect_accepted("parts two to five one later", BENCH_ONE_LATER, 1);
    expect("size with parts one later", file.size, 129);
}

static void expect_refused_with(const char *what, size_t place, uint8_t byte, unsigned refusal)
{
    take_bench(BENCH_G);
    file.bytes[place] = byte;
    expect_refused_file(what, refusal);
}

static void files(void)
{
    const uint16_t numbers[NESSFLURRY_HEAD_SIZE] = {4, 3, 2, 2, 4, 0, 0, 28, 4, 32, 72, 104, 3, 107, 9, 116, 12};
    uint16_t head[NESSFLURRY_HEAD_SIZE];
    take_bench(BENCH_G);
    expect("size of G", file.size, 128);
    expect("the reader", plain_read(file.bytes, file.size, head), ending(NESSFLURRY_DONE, 0));
    expect("the reader's numbers", memcmp(head, numbers, sizeof head) == 0, true);
    expect_refused_with("C 16", 2, 16, 2);
    expect_refused_with("second offset 31", 12, 31, 3);
}

static void buffers(void)
{
    take_bench(BENCH_G);
    expect_refused_check("line buffer 12", (struct sizes){12, 15, 1}, 12);
    expect("line buffer 13", check_with((struct sizes){13, 15, 1}), ending(NESSFLURRY_ACCEPTED, 1));
    expect_refused_check("working list 14", (struct sizes){13, 14, 1}, 13);
}

static void cabinet_calls(void)
{
    take_bench(BENCH_G);
    expect("begin with 2", plain_begin(file.bytes, file.size, 2), cabinet(0, 0, 2));
    expect("result 1", plain_report(file.bytes, file.size, 0, 2, 1), cabinet(0, 1, 2));
    expect("then result 0", plain_report(file.bytes, file.size, 1, 2, 0), cabinet(0, 3, 2));
    expect("then result 0 again", plain_report(file.bytes, file.size, 3, 2, 0), cabinet(0, 0, 1));
    expect("then the action", plain_action(file.bytes, file.size, 0, 1), cabinet(0, 0, 0));
    expect("then result 2", plain_report(file.bytes, file.size, 0, 1, 2), cabinet(18, 0, 1));
}

void bench_cases(void)
{
    runs();
    checks();
    files();
    buffers();
    cabinet_calls();
}
