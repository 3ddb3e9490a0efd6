/*
 * Runs with several limits, and the checks with the runs that follow from them.
 */
#include "both_checks.h"
#include "choices.h"
#include "nessflurry.h"
#include "tally.h"
#include "trials.h"

static uint8_t line[NESSFLURRY_MAX_LAMPS + 1];
static struct failure failure;

static bool ends_in(uint64_t answer, uint8_t code) { return nessflurry_code_of(answer) == code; }

/* A limit that no run of the line reaches, if such a run takes a moment at most; else one that keeps it to a moment. */
static uint32_t high_limit(const struct job *job, size_t lamps)
{
    return (lamps + 1) * job->states * job->worlds <= 1u << 22 ? UINT32_MAX : 1u << 20;
}

/* The run of a line that has this ending without a limit. */
static void try_limit(uint8_t start, const uint8_t *kinds, size_t lamps, uint8_t end, uint32_t limit, uint64_t ending)
{
    uint64_t answer = compare_run(start, kinds, lamps, end, limit);
    if (limit >= nessflurry_steps_of(ending))
        demand(answer == ending, "the same ending within the limit");
    else
        demand(ends_in(answer, NESSFLURRY_STOPPED) && nessflurry_steps_of(answer) == limit, "stopped at the limit");
}

static bool has_kinds(const struct job *job, const uint8_t *kinds, size_t lamps)
{
    for (size_t lamp = 0; lamp < lamps; lamp++)
        if (kinds[lamp] < 1 || kinds[lamp] > job->kinds)
            return false;
    return true;
}

void try_run(struct trial *trial)
{
    struct random *random = &trial->random;
    uint8_t start = any_start(&trial->job, random), end = any_end(&trial->job, random);
    size_t lamps = choose_line(&trial->job, random, line);
    uint64_t ending = compare_run(start, line, lamps, end, high_limit(&trial->job, lamps));
    bool refused = ends_in(ending, NESSFLURRY_REFUSED);
    demand(refused || is_end(&trial->job, end), "no run to an end that the job does not have");
    demand(refused || has_kinds(&trial->job, line, lamps), "no run along lamps of a kind that the job does not have");
    if (refused || ends_in(ending, NESSFLURRY_STOPPED))
        return;
    uint32_t steps = nessflurry_steps_of(ending);
    uint32_t any = (uint32_t)random_word(random), less = below(random, steps + 1);
    const uint32_t limits[] = {0, 1, steps, steps - 1, steps + 1, UINT32_MAX, any, less};
    for (int more = 0; more < 3; more++)
        try_limit(start, line, lamps, end, limits[below(random, 8)], ending);
}

void try_short_buffers(struct trial *trial)
{
    struct random *random = &trial->random;
    struct sizes needed = enough(&trial->job), sizes = enough_or_more(&trial->job, random);
    uint32_t which = 1 + below(random, 7);
    if (which & 1)
        sizes.line = too_few(needed.line, random);
    if (which & 2)
        sizes.list = too_few(needed.list, random);
    if (which & 4)
        sizes.words = too_few(needed.words, random);
    uint64_t answer = compare_both_checks(compare_check, sizes, failure.line, random);
    uint8_t due = which & 1 ? NESSFLURRY_REFUSED_LINE_BUFFER : NESSFLURRY_REFUSED_WORK_BUFFERS;
    demand(nessflurry_refusal_of(answer) == due, "the refusal of a short line buffer, else that of list and words");
}

/* The run of a line that cannot fail by what the check has answered. */
static void expect_goal(struct trial *trial, uint8_t start, const uint8_t *kinds, size_t lamps, uint8_t end)
{
    uint32_t limit = high_limit(&trial->job, lamps);
    uint64_t answer = compare_run(start, kinds, lamps, end, limit);
    bool cut_short = limit != UINT32_MAX && ends_in(answer, NESSFLURRY_STOPPED);
    demand(cut_short || ends_in(answer, NESSFLURRY_GOAL), "goal, as the check has answered");
}

static void follow_accepted(struct trial *trial)
{
    for (int more = 0; more < 3; more++) {
        size_t lamps = below(&trial->random, one_in(&trial->random, 100) ? NESSFLURRY_MAX_LAMPS + 1 : 40);
        uint8_t start = marked_start(&trial->job, &trial->random), end = choose_end(&trial->job, &trial->random);
        choose_kinds(&trial->job, &trial->random, line, lamps);
        expect_goal(trial, start, line, lamps, end);
    }
}

/* A shorter line than the failing one does not fail, whatever its end: any, or its front. */
static void try_shorter(struct trial *trial, uint32_t failing_lamps)
{
    size_t lamps = below(&trial->random, failing_lamps);
    uint8_t start = marked_start(&trial->job, &trial->random), end = choose_end(&trial->job, &trial->random);
    if (one_in(&trial->random, 2))
        choose_kinds(&trial->job, &trial->random, line, lamps);
    else
        memcpy(line, failure.line, lamps);
    expect_goal(trial, start, line, lamps, end);
}

/* Nor does a line as long as it that comes before it, with a lower kind where the two first differ, whatever its start and end. */
static void try_earlier(struct trial *trial, uint32_t lamps)
{
    uint8_t start = marked_start(&trial->job, &trial->random), end = choose_end(&trial->job, &trial->random);
    uint32_t differs = below(&trial->random, lamps);
    if (failure.line[differs] == 1)
        return;
    choose_kinds(&trial->job, &trial->random, line, lamps);
    memcpy(line, failure.line, differs);
    line[differs] = (uint8_t)(1 + below(&trial->random, failure.line[differs] - 1u));
    expect_goal(trial, start, line, lamps, end);
}

/*
 * Nor do its own lamps with a lower end kind, whatever the start. So a failure at a lamp, which comes with every end kind, is told
 * with 0.
 */
static void try_lower_ends(struct trial *trial)
{
    for (uint8_t end = 0; end < nessflurry_end_of(failure.answer); end++) {
        uint8_t start = one_in(&trial->random, 2) ? nessflurry_start_of(failure.answer) : marked_start(&trial->job, &trial->random);
        expect_goal(trial, start, failure.line, nessflurry_lamps_of(failure.answer), end);
    }
}

/* Nor does the line itself from a lower start. */
static void try_lower_starts(struct trial *trial)
{
    for (uint8_t start = 0; start < nessflurry_start_of(failure.answer); start++)
        if (trial->job.starts[start])
            expect_goal(trial, start, failure.line, nessflurry_lamps_of(failure.answer), nessflurry_end_of(failure.answer));
}

static void follow_failed(struct trial *trial)
{
    uint8_t start = nessflurry_start_of(failure.answer), end = nessflurry_end_of(failure.answer);
    uint32_t lamps = nessflurry_lamps_of(failure.answer), most = (uint32_t)trial->job.states * trial->job.worlds + 1;
    demand(lamps <= most, "a failing line of at most S·W + 1 lamps");
    if (lamps > most)
        return;
    uint64_t ending = compare_run(start, failure.line, lamps, end, UINT32_MAX);
    bool as_told = ends_in(ending, nessflurry_code_of(failure.answer));
    demand(as_told, "the named failure, from the run of the failing line");
    if (!as_told)
        return;
    uint32_t steps = nessflurry_steps_of(ending);
    try_limit(start, failure.line, lamps, end, steps, ending);
    if (steps > 0)
        try_limit(start, failure.line, lamps, end, steps - 1, ending);
    if (lamps > 0) {
        try_shorter(trial, lamps);
        try_earlier(trial, lamps);
    }
    try_lower_ends(trial);
    try_lower_starts(trial);
    try_starts_alone(trial, &failure);
}

bool try_checks(struct trial *trial)
{
    struct sizes sizes = enough_or_more(&trial->job, &trial->random);
    failure.answer = compare_both_checks(compare_check, sizes, failure.line, &trial->random);
    bool accepted = ends_in(failure.answer, NESSFLURRY_ACCEPTED);
    if (accepted)
        follow_accepted(trial);
    else
        follow_failed(trial);
    return accepted;
}

void try_checks_alone(struct trial *trial)
{
    compare_both_checks(compare_check_alone, enough(&trial->job), failure.line, &trial->random);
}
