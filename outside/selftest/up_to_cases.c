/* The check up to a number of lamps (02, (b)): bench line G, its variants, and jobs made for the purpose. */
#include "cases.h"

static void expect_none(const char *what, uint16_t longest)
{
    expect(what, check_up_to(longest), ending(NESSFLURRY_NONE_UP_TO, longest));
}

static void expect_failed(const char *what, uint16_t longest, uint64_t wanted, const uint8_t *line)
{
    expect(what, check_up_to(longest), wanted);
    expect(what, memcmp(lent.line, line, nessflurry_lamps_of(wanted)) == 0, true);
}

/* The failure with this line: not before it is long enough, and from there on always. */
static void expect_failed_from(const char *what, enum bench_variant variant, unsigned kind, const uint8_t *line, uint16_t lamps)
{
    const uint64_t wanted = failing(kind, 0, lamps, 0);
    take_bench(variant);
    for (uint16_t longest = 0; longest < lamps; longest++)
        expect_none(what, longest);
    expect_failed(what, lamps, wanted, line);
    expect_failed(what, (uint16_t)(lamps + 1), wanted, line);
    expect_failed(what, NESSFLURRY_MAX_LAMPS, wanted, line);
}

/* The full check accepts G and the last variant; this one accepts nothing. */
static void bench_lines(void)
{
    const uint8_t sound[] = {1, 1}, faulty[] = {2};
    take_bench(BENCH_G);
    expect_none("G, no lamp", 0);
    expect_none("G, one lamp", 1);
    expect_none("G, up to the most lamps", 65535);
    take_bench(BENCH_ONE_LATER);
    expect_none("parts two to five one later", 65535);
    expect_failed_from("state 1 to 3,3", BENCH_TEST_UNHEEDED, 4, faulty, 1);
    expect_failed_from("state 0 to 4,0", BENCH_PEEK_FOR_EVER, 3, sound, 1);
    expect_failed_from("state 0 to none,1", BENCH_END_UNFORESEEN, 2, sound, 0);
    expect_failed_from("first state 4", BENCH_ENDS_AT_ONCE, 4, sound, 1);
    expect_failed_from("first state 1", BENCH_FIRST_TEST, 1, sound, 0);
    expect_failed_from("G with five states", BENCH_FIVE_STATES, 2, sound, 2);
}

/* With five states S·W + 1 is 16, even where no lamp can be written. */
static void buffers(void)
{
    const struct sizes least = {16, 18, 1};
    take_bench(BENCH_FIVE_STATES);
    expect("no lamp, buffers of the least size", check_up_to_with(0, least), ending(NESSFLURRY_NONE_UP_TO, 0));
    expect("two lamps, buffers of the least size", check_up_to_with(2, least), failing(NESSFLURRY_NO_BRANCH, 0, 2, 0));
    expect_refused_check("line buffer 15", (struct sizes){15, 18, 1}, 12);
    expect_refused_check("line buffer 15, no list, no word", (struct sizes){15, 0, 0}, 12);
    expect_refused_check("working list 17", (struct sizes){16, 17, 1}, 13);
    expect_refused_check("no word", (struct sizes){16, 18, 0}, 13);
}

static void without_states(void)
{
    const uint8_t goal[] = {1, 0, 0, 1}, line[] = {1};
    take_final(2, 1, 1, goal);
    expect_failed("the higher start on the empty line, no lamp", 0, failing(NESSFLURRY_GOAL_FALSE, 1, 0, 0), line);
    expect_failed("the higher start on the empty line, one lamp", 1, failing(NESSFLURRY_GOAL_FALSE, 1, 0, 0), line);
    job.starts[1] = 0;
    write_job();
    expect_none("false at a lamp, no lamp", 0);
    expect_failed("false at a lamp, one lamp", 1, failing(NESSFLURRY_GOAL_FALSE, 0, 1, 0), line);
}

void up_to_cases(void)
{
    bench_lines();
    buffers();
    without_states();
}
