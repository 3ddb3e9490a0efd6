/*
 * Single calls: on a file that is refused, and with what anyone might hand over with one that is not.
 */
#include "compare/tally.h"
#include "job_files/logs.h"
#include "tries.h"

static void expect_refusal(uint8_t due, uint64_t answer)
{
    demand(nessflurry_refusal_of(answer) == due, "the reader's refusal from every operation");
}

void try_refused(const struct arguments *with, uint8_t due, struct random *random)
{
    static uint8_t failing[NESSFLURRY_LINE_SIZE];
    const struct sizes sizes = {with->line_size, with->list_size, with->words_size % 8u};
    const uint16_t lamps = number_of(with->cabinet_lamps);
    const size_t given = sizeof with->kinds_of_line, log_size = sizeof with->entries_of_log - is_rare(with->is_odd);
    expect_refusal(due, compare_walk(with->state, with->world, with->column));
    expect_refusal(due, compare_run(with->start, with->kinds_of_line, given, with->end, number_of(with->limit)));
    expect_refusal(due, compare_check(NO_BOUND, sizes, failing, random));
    expect_refusal(due, compare_check(number_of(with->longest), sizes, failing, random));
    expect_refusal(due, compare_begin(lamps));
    expect_refusal(due, compare_action(with->state, lamps));
    expect_refusal(due, compare_report(with->state, lamps, with->result));
    expect_refusal(due, compare_replay(with->entries_of_log, log_size));
}

static void try_walk_and_cabinet(const struct arguments *with, const struct job *job)
{
    const uint8_t state = mostly_below(with->state, job->states + 1u), result = mostly_below(with->result, job->results);
    const uint16_t lamps = is_rare(with->cabinet_lamps[1]) ? number_of(with->cabinet_lamps) : with->cabinet_lamps[0] % 4;
    compare_walk(state, mostly_below(with->world, job->worlds), mostly_below(with->column, columns_of(job)));
    compare_begin(lamps);
    compare_action(state, lamps);
    compare_report(state, lamps, result);
}

/* A low one, or one that is above all counts of steps, as far as the run does not take long then. */
static uint32_t chosen_limit(const struct arguments *with, const struct job *job, size_t lamps)
{
    if (with->limit[0] < 128)
        return with->limit[1];
    return is_short(job, lamps) ? UINT32_MAX - with->limit[1] : MANY_STEPS;
}

static void try_run(const struct arguments *with, const struct job *job)
{
    static uint8_t line[NESSFLURRY_MAX_LAMPS + 1];
    const size_t lamps = mostly_few(with->lamps, NESSFLURRY_MAX_LAMPS), given = sizeof with->kinds_of_line;
    for (size_t lamp = 0; lamp < lamps; lamp++)
        line[lamp] = mostly_kind(with->kinds_of_line[lamp % given], job->kinds);
    compare_run(mostly_below(with->start, job->worlds), line, lamps, mostly_below(with->end, ends_of(job)),
                chosen_limit(with, job, lamps));
}

static void try_replay(const struct arguments *with, const struct job *job)
{
    static struct log log;
    const size_t entries = at_most_many(job, mostly_few(with->entries, MOST_ENTRIES)), given = sizeof with->entries_of_log;
    log.size = 0;
    while (entries_of(&log) < entries) {
        const uint8_t *const entry = &with->entries_of_log[log.size % given];
        add_entry(&log, mostly_below(entry[0], job->actions), mostly_below(entry[1], job->results));
    }
    if (log.size > 0 && is_rare(with->is_odd))
        log.size--;
    compare_replay(log.bytes, log.size);
}

void try_calls(const struct arguments *with, const struct job *job)
{
    try_walk_and_cabinet(with, job);
    try_run(with, job);
    try_replay(with, job);
}
