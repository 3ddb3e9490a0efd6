/*
 * Logs: any, those that an execution makes, and these with slight changes; and what holds of several logs together.
 */
#include "choices.h"
#include "nessflurry.h"
#include "tally.h"
#include "trials.h"

static struct log made;

static uint64_t replayed(const struct log *log) { return compare_replay(log->bytes, log->size); }

static bool is_possible(uint64_t answer) { return nessflurry_code_of(answer) == NESSFLURRY_POSSIBLE; }

static uint64_t impossible_at(size_t entry) { return (uint64_t)NESSFLURRY_IMPOSSIBLE << 8 | (uint64_t)entry << 32; }

/* ---- What an answer says of other logs ---- */

static void follow_possible(const struct log *log, struct random *random)
{
    size_t entries = below(random, (uint32_t)entries_of(log) + 1);
    demand(is_possible(compare_replay(log->bytes, 2 * entries)), "possible, as the front of a possible log");
}

static void follow_impossible(const struct log *log, uint64_t answer)
{
    size_t entry = nessflurry_place_of(answer);
    demand(entry < entries_of(log), "a place in the log");
    if (entry >= entries_of(log))
        return;
    demand(is_possible(compare_replay(log->bytes, 2 * entry)), "possible, with the entries before the place");
    demand(compare_replay(log->bytes, 2 * entry + 2) == answer, "the same place, without the entries after it");
}

static void try_log(const struct log *log, struct random *random)
{
    uint64_t answer = replayed(log);
    if (is_possible(answer))
        follow_possible(log, random);
    else if (nessflurry_code_of(answer) == NESSFLURRY_IMPOSSIBLE)
        follow_impossible(log, answer);
}

/* ---- Logs that executions make ---- */

/* The log of a line's execution, which has an entry for each step that the run counts, and goes on where a plan circles. */
static struct execution log_line(struct trial *trial, size_t lamps, size_t most)
{
    static uint8_t line[NESSFLURRY_MAX_LAMPS];
    uint8_t start = marked_start(&trial->job, &trial->random), end = choose_end(&trial->job, &trial->random);
    struct execution at = begun(&trial->job, start, line, lamps, end);
    choose_kinds(&trial->job, &trial->random, line, lamps);
    made.size = 0;
    add_steps(&made, &at, most);
    uint64_t ending = compare_run(start, line, lamps, end, (uint32_t)most);
    uint8_t code = nessflurry_code_of(ending);
    size_t steps = code == NESSFLURRY_STOPPED || code == NESSFLURRY_CIRCLES ? most : nessflurry_steps_of(ending);
    demand(entries_of(&made) == steps, "an entry for each step of the run");
    return at;
}

/* No line gives an entry after the plan's end, nor one for whose result there is no branch. */
static void try_beyond(struct trial *trial, const struct execution *at)
{
    size_t entries = entries_of(&made);
    bool without_branch = due_result(at) != NONE && !goes_on(at);
    if (entries == MOST_ENTRIES || !(ended(at) || without_branch))
        return;
    if (ended(at))
        add_any_entry(&made, &trial->job, &trial->random);
    else
        add_entry(&made, due_action(at), due_result(at));
    demand(replayed(&made) == impossible_at(entries), "impossible with the entry after the last step");
}

/* Nor does any give another action than the plan's; it is tried in the last entry often. */
static void try_other_action(struct trial *trial)
{
    uint32_t entries = (uint32_t)entries_of(&made), actions = trial->job.actions;
    if (entries == 0 || actions == 1)
        return;
    uint32_t entry = one_in(&trial->random, 2) ? entries - 1 : below(&trial->random, entries);
    uint8_t *action = &made.bytes[2 * entry], right = *action;
    *action = (uint8_t)another_below(&trial->random, actions, right);
    demand(replayed(&made) == impossible_at(entry), "impossible with an action that is not the plan's");
    *action = right;
}

/* Whatever the entries before it come to, one out of range is refused; and an odd length or too great a one before that. */
static void try_refused(struct trial *trial)
{
    if (made.size == 0)
        return;
    spoil_log(&trial->job, &trial->random, &made);
    demand(nessflurry_refusal_of(replayed(&made)) == NESSFLURRY_REFUSED_LOG_ENTRIES, "the refusal of an entry out of range");
    if (entries_of(&made) == MOST_ENTRIES)
        add_any_entry(&made, &trial->job, &trial->random);
    size_t wrong = made.size > NESSFLURRY_MAX_LOG_SIZE && one_in(&trial->random, 2) ? made.size : made.size - 1;
    uint64_t answer = compare_replay(made.bytes, wrong);
    demand(nessflurry_refusal_of(answer) == NESSFLURRY_REFUSED_LOG_SIZE, "the refusal of the log's size");
}

static void try_made_log(struct trial *trial, size_t lamps, size_t most)
{
    struct execution at = log_line(trial, lamps, most);
    demand(is_possible(replayed(&made)), "possible, as the log of an execution");
    follow_possible(&made, &trial->random);
    try_other_action(trial);
    try_beyond(trial, &at);
    change_log(&made, &trial->job, &trial->random);
    try_log(&made, &trial->random);
    try_refused(trial);
}

/* ---- The trials ---- */

enum { FEW_LAMPS = 12, FEW_STEPS = 40 };

void try_logs(struct trial *trial)
{
    choose_log(&trial->job, &trial->random, &made);
    try_log(&made, &trial->random);
    for (int more = 0; more < 2; more++)
        try_made_log(trial, below(&trial->random, FEW_LAMPS), FEW_STEPS);
}

/* On a line that has lamps for all entries, or on a short one, where only a plan that circles goes on for so long. */
void try_longest_log(struct trial *trial)
{
    try_made_log(trial, one_in(&trial->random, 3) ? below(&trial->random, FEW_LAMPS) : NESSFLURRY_MAX_LAMPS, MOST_ENTRIES);
}
