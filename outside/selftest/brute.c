/*
 * Every line up to a length, each run on its own, as 01, Bench line G, asks for. Nothing is kept from one line for the next but
 * the set of pairs reached.
 */
#include "brute.h"
#include "cases.h"
#include "job_files/execution.h"

/* An execution on its way, and what it met since it came to this lamp or to the line's end. */
struct followed {
    struct execution at;
    uint32_t steps, steps_on_arrival;
    bool met_here[BRUTE_PAIRS];
};

static unsigned pair_of(const struct followed *now)
{
    return now->at.state * job.worlds + now->at.world;
}

static void arrive(struct followed *now, bool reached[BRUTE_PAIRS])
{
    reached[pair_of(now)] = true;
    now->steps_on_arrival = now->steps;
    memset(now->met_here, 0, sizeof(bool) * job.states * job.worlds);
}

static bool met_before(struct followed *now)
{
    bool *const met = &now->met_here[pair_of(now)];
    const bool before = *met;
    *met = true;
    return before;
}

/*
 * The execution of 001 has no counter: it goes on for ever exactly if a pair comes twice at one lamp, since whatever
 * follows the first coming follows the second too. 01, One run, says which steps are counted then: S·W at this lamp.
 */
uint64_t brute_run(uint8_t start, const uint8_t *line, size_t lamps, uint8_t end, bool reached[BRUTE_PAIRS])
{
    struct followed now;
    now.at = begun(&job, start, line, lamps, end);
    now.steps = 0;
    arrive(&now, reached);
    for (;;) {
        const size_t passed = now.at.passed;
        if (ended(&now.at))
            return ending(job.goal[now.at.world][column(&now.at)] == 1 ? NESSFLURRY_GOAL : NESSFLURRY_GOAL_FALSE, now.steps);
        if (met_before(&now))
            return ending(NESSFLURRY_CIRCLES, now.steps_on_arrival + job.states * job.worlds);
        if (due_result(&now.at) == NONE)
            return ending(NESSFLURRY_NOT_LEGAL, now.steps);
        if (!goes_on(&now.at))
            return ending(NESSFLURRY_NO_BRANCH, now.steps);
        take_step(&now.at);
        now.steps++;
        if (now.at.passed > passed)
            arrive(&now, reached);
    }
}

bool next_line(uint8_t line[], uint32_t lamps, uint8_t *end)
{
    if (*end < job.last_end) {
        (*end)++;
        return true;
    }
    *end = 0;
    for (uint32_t lamp = lamps; lamp > 0; lamp--) {
        if (line[lamp - 1] < job.kinds) {
            line[lamp - 1]++;
            return true;
        }
        line[lamp - 1] = 1;
    }
    return false;
}

/* The run of one line, which plain_run answers too. */
static uint64_t try_line(uint8_t start, const uint8_t *line, uint32_t lamps, uint8_t end, bool reached[BRUTE_PAIRS])
{
    const uint64_t run = brute_run(start, line, lamps, end, reached);
    expect("each line's run", plain_run(file.bytes, file.size, start, line, lamps, end, UINT32_MAX), run);
    return run;
}

/* The lowest start from which the line fails with this end, as a failing answer; or Goal. */
static uint64_t try_from_each(const uint8_t *line, uint32_t lamps, uint8_t end, bool reached[BRUTE_PAIRS])
{
    for (uint8_t start = 0; start < job.worlds; start++) {
        if (job.starts[start] != 1)
            continue;
        const unsigned code = nessflurry_code_of(try_line(start, line, lamps, end, reached));
        if (code != NESSFLURRY_GOAL)
            return failing(code, start, lamps, end);
    }
    return ending(NESSFLURRY_GOAL, 0);
}

/* The lines of exactly this many lamps: the failing answer of the first that fails, which is left in `line`; or Goal. */
static uint64_t try_lines(uint32_t lamps, uint8_t line[], bool reached[BRUTE_PAIRS])
{
    uint8_t end = 0;
    memset(line, 1, lamps);
    do {
        const uint64_t answer = try_from_each(line, lamps, end, reached);
        if (nessflurry_code_of(answer) != NESSFLURRY_GOAL)
            return answer;
    } while (next_line(line, lamps, &end));
    return ending(NESSFLURRY_GOAL, 0);
}

static uint32_t count_of(const bool reached[BRUTE_PAIRS])
{
    const size_t pairs = enough(&job).list;
    uint32_t count = 0;
    for (size_t pair = 0; pair < pairs; pair++)
        count += reached[pair];
    return count;
}

/* By demand 3 no shortest failing line has more lamps; and one lamp fewer is enough to reach every pair. */
static uint16_t most_lamps(void)
{
    return (uint16_t)(job.states * job.worlds + 1);
}

/* No line of up to so many lamps fails. The search has stopped there: its words have only the pairs that these lines reach. */
static void expect_none_up_to(uint16_t longest, const bool reached[BRUTE_PAIRS])
{
    const size_t words = enough(&job).words;
    uint32_t kept = 0;
    expect("none up to a number of lamps", check_up_to(longest), ending(NESSFLURRY_NONE_UP_TO, longest));
    for (size_t i = 0; i < words; i++)
        kept += (uint32_t)__builtin_popcountll(lent.words[i]);
    expect("the pairs of a check up to a number of lamps", kept, count_of(reached));
}

/*
 * What the check owes: by lamp count, then kinds, then end kind, then start, the first failing line, whose lamps are left in
 * `line`; or the number of pairs reached. The check up to each number of lamps before that line's owes none.
 */
static uint64_t brute_check(uint8_t line[NESSFLURRY_LINE_SIZE])
{
    bool reached[BRUTE_PAIRS] = {false};
    for (uint16_t lamps = 0; lamps <= most_lamps(); lamps++) {
        const uint64_t answer = try_lines(lamps, line, reached);
        if (nessflurry_code_of(answer) != NESSFLURRY_GOAL)
            return answer;
        expect_none_up_to(lamps, reached);
    }
    return ending(NESSFLURRY_ACCEPTED, count_of(reached));
}

static void expect_failure(uint64_t answer, uint64_t wanted, const uint8_t *line)
{
    expect("the failure against all lines", answer, wanted);
    expect("the failing line against all lines", memcmp(lent.line, line, nessflurry_lamps_of(wanted)) == 0, true);
}

uint64_t expect_as_brute(void)
{
    static uint8_t line[NESSFLURRY_LINE_SIZE];
    const uint64_t wanted = brute_check(line);
    if (nessflurry_code_of(wanted) == NESSFLURRY_ACCEPTED) {
        expect("the check against all lines", check(), wanted);
        return wanted;
    }
    expect_failure(check(), wanted, line);
    for (uint16_t longest = nessflurry_lamps_of(wanted); longest <= most_lamps(); longest++)
        expect_failure(check_up_to(longest), wanted, line);
    return wanted;
}

void expect_failed_as_brute(const char *what, uint64_t wanted, const uint8_t *kinds)
{
    expect(what, expect_as_brute(), wanted);
    expect(what, memcmp(lent.line, kinds, nessflurry_lamps_of(wanted)) == 0, true);
}
