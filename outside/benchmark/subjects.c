#include "subjects.h"

#include "plain.h"

#include <stdio.h>

/*
 * A kind with which the plan passes this lamp of a line into a state that is not final, or 0; state and world become those of
 * its arrival. Each lamp begins at another kind.
 */
static uint8_t kind_that_leads_on(const struct subject *subject, size_t lamp, uint8_t *state, uint8_t *world)
{
    for (size_t tries = 0; tries < subject->job.kinds; tries++) {
        uint8_t kind = (uint8_t)(1 + (lamp + tries) % subject->job.kinds);
        uint8_t column = lamp_column(&subject->job, kind);
        uint64_t answer = plain_walk(subject->file.bytes, subject->file.size, *state, *world, column);
        if (nessflurry_code_of(answer) == NESSFLURRY_ARRIVED && nessflurry_state_of(answer) != subject->job.states) {
            *state = nessflurry_state_of(answer);
            *world = nessflurry_world_of(answer);
            return kind;
        }
    }
    return 0;
}

/* A line along which the run goes on as far as it can, and the highest end kind. */
static void choose_line(struct subject *subject)
{
    uint8_t state = subject->job.first, world = subject->start, kind;
    subject->end = subject->job.last_end;
    subject->lamps = 0;
    while (subject->lamps < RUN_LAMPS && (kind = kind_that_leads_on(subject, subject->lamps, &state, &world)) != 0)
        subject->line[subject->lamps++] = kind;
}

/* The kind of the lamp that an execution comes to next. Where none leads on, the plan may circle, so that any will do. */
static uint8_t next_kind(const struct subject *subject, const struct execution *at)
{
    uint8_t state = at->state, world = at->world, kind = kind_that_leads_on(subject, at->passed, &state, &world);
    return kind != 0 ? kind : 1;
}

void take_log(struct subject *subject, size_t most)
{
    static uint8_t line[MOST_ENTRIES];
    struct execution at = begun(&subject->job, subject->start, line, 0, subject->end);
    for (subject->log.size = 0; entries_of(&subject->log) < most; add_steps(&subject->log, &at, 1)) {
        if (at.passed == at.lamps)
            line[at.lamps++] = next_kind(subject, &at);
        if (!goes_on(&at))
            return;
    }
}

static void finish_subject(struct subject *subject)
{
    struct random no_gaps = {0};
    write_file(&subject->file, &subject->job, &no_gaps);
    for (subject->start = 0; !subject->job.starts[subject->start];)
        subject->start++;
    for (subject->result = 0; subject->job.target[subject->job.first][subject->result] == NONE;)
        subject->result++;
    choose_line(subject);
    subject->longest = 0;
    subject->log.size = 0;
}

void bench_subject(struct subject *subject, const char *name, enum bench_variant variant)
{
    snprintf(subject->name, NAME_BYTES, "%s", name);
    bench_line(&subject->job, variant);
    finish_subject(subject);
}

void example_subject(struct subject *subject)
{
    snprintf(subject->name, NAME_BYTES, "example");
    example_job(&subject->job);
    finish_subject(subject);
}

void sized_subject(struct subject *subject, enum sized_job which, enum size size)
{
    snprintf(subject->name, NAME_BYTES, "%s_%s", size_names[size], sized_job_names[which]);
    sized_job(&subject->job, which, size);
    finish_subject(subject);
}

void steps_subject(struct subject *subject)
{
    snprintf(subject->name, NAME_BYTES, "steps_600006");
    steps_job(&subject->job);
    finish_subject(subject);
}

void words_subject(struct subject *subject, size_t words_size, size_t bits)
{
    static uint64_t words[SUBJECT_WORDS];
    struct random random = {0};
    snprintf(subject->name, NAME_BYTES, "%zu bits of %zu words", bits, words_size);
    random_bytes(&random, words, words_size * sizeof *words);
    subject->words = words;
    subject->words_size = words_size;
    subject->bits = bits;
}

static struct rules rules;

void known_rules_subject(struct subject *subject, const char *name, enum known_rules which)
{
    snprintf(subject->name, NAME_BYTES, "%s", name);
    known_rules(&rules, which);
    subject->rules = &rules;
}

void rules_subject(struct subject *subject, uint32_t fluents, size_t count, bool particular)
{
    const struct fill_numbers largest = {MOST_ACTIONS, MOST_WORLDS, MOST_COLUMNS - 3, MOST_RESULTS, 3};
    const char *about = count == 0 ? "" : particular ? "_one_cell" : "_all_cells";
    snprintf(subject->name, NAME_BYTES, "max_%u_fluents_%zu_rules%s", (unsigned)fluents, count, about);
    sized_rules(&rules, largest, fluents, count, particular);
    subject->rules = &rules;
}

const char *const growing_names[GROWING] = {"long walks", "many pairs"};

void growing_subject(struct subject *subject, enum growing growing, uint8_t worlds, uint8_t states, uint8_t kinds)
{
    snprintf(subject->name, NAME_BYTES, "%s, W %d, S %d, C %d", growing_names[growing], worlds, states, kinds);
    memset(subject->job.gap, 0, sizeof subject->job.gap);
    largest_numbers(&subject->job);
    subject->job.worlds = worlds;
    subject->job.states = states;
    subject->job.kinds = kinds;
    if (growing == LONG_WALKS)
        turning_job(&subject->job, 1, UINT32_MAX);
    else
        turning_job(&subject->job, states / MOST_RESULTS, 0);
    finish_subject(subject);
}
