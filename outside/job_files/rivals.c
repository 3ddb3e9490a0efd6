/*
 * A rival goes along its line by stages, one for each lamp and one for the end: a state looks, and another moves on. Where the
 * look shows that the line is not the rival's own, the plan is over, in the world in which the goal is true.
 */
#include "rivals.h"

#include "arguments.h"

enum { OTHERWISE, FOUND, UNFORESEEN, AGAIN, RESULTS }; /* of a look: the plan is over; its line; no branch; another look */

static uint8_t looking(uint8_t stage) { return 2 * stage; }

static uint8_t passing(uint8_t stage) { return 2 * stage + 1; }

/* The actions before it are the looks, one for each stage. */
static uint8_t pass_action(uint8_t lamps) { return lamps + 1; }

/* The ways to fail in turn, by the rival's number; the goal is true in no rival's world. */
static struct cell failing_look(uint8_t rival)
{
    const struct cell ways[] = {{rival, OTHERWISE}, {0, NONE}, {rival, UNFORESEEN}, {rival, AGAIN}};
    return ways[rival % 4];
}

static struct cell look_at_lamp(const struct rival *rivals, uint8_t rival, uint8_t stage, uint8_t lamps, uint8_t kind,
                                struct cell well)
{
    if (stage == lamps || rivals[rival].line[stage] != kind)
        return well;
    return rivals[rival].at_lamp && stage + 1 == lamps ? failing_look(rival) : (struct cell){rival, FOUND};
}

static struct cell look_at_end(const struct rival *rivals, uint8_t rival, uint8_t stage, uint8_t lamps, uint8_t end,
                               struct cell well)
{
    return stage == lamps && rivals[rival].ends >> end & 1 ? failing_look(rival) : well;
}

static void look_cells(struct job *job, const struct rival *rivals, uint8_t rival, uint8_t stage, uint8_t lamps)
{
    const struct cell well = {job->worlds - 1, OTHERWISE};
    for (uint8_t end = 0; end < ends_of(job); end++)
        job->cells[stage][rival][end] = look_at_end(rivals, rival, stage, lamps, end, well);
    for (uint8_t kind = 1; kind <= job->kinds; kind++)
        job->cells[stage][rival][lamp_column(job, kind)] = look_at_lamp(rivals, rival, stage, lamps, kind, well);
}

static void stage_rows(struct job *job, uint8_t stage, uint8_t lamps)
{
    job->action[looking(stage)] = stage;
    job->target[looking(stage)][OTHERWISE] = job->states;
    job->target[looking(stage)][AGAIN] = looking(stage);
    if (stage == lamps)
        return;
    job->target[looking(stage)][FOUND] = passing(stage);
    job->action[passing(stage)] = pass_action(lamps);
    job->target[passing(stage)][0] = looking(stage + 1);
}

void rival_job(struct job *job, uint8_t lamps, const struct rival *rivals, uint8_t count)
{
    const uint8_t stages = lamps + 1, pass = pass_action(lamps);
    set_numbers(job, (struct job_numbers){stages + 1, count + 1, job->kinds, RESULTS, 2 * lamps + 1, job->last_end});
    clear_tables(job);
    job->first = looking(0);
    job->marks[pass] = 1;
    memset(job->starts, 1, count);
    memset(job->goal[count], 1, sizeof job->goal[count]);
    for (uint8_t stage = 0; stage < stages; stage++) {
        stage_rows(job, stage, lamps);
        for (uint8_t rival = 0; rival < count; rival++)
            look_cells(job, rivals, rival, stage, lamps);
    }
    for (uint8_t rival = 0; rival < count; rival++)
        for (uint8_t kind = 1; kind <= job->kinds; kind++)
            job->cells[pass][rival][lamp_column(job, kind)] = (struct cell){rivals[rival].becomes, 0};
}

/* ---- Any rivals ---- */

static uint16_t random_ends(const struct job *job, struct random *random)
{
    uint16_t ends = (uint16_t)(1u << choose_end(job, random));
    return one_in(random, 2) ? ends : (uint16_t)(ends | 1u << choose_end(job, random));
}

static void random_rival(struct rival *rival, const struct job *job, struct random *random, uint8_t lamps)
{
    if (lamps > 0 && one_in(random, 3)) {
        uint8_t *lamp = &rival->line[below(random, lamps)];
        *lamp = (uint8_t)(1 + below(random, job->kinds));
    }
    rival->at_lamp = lamps > 0 && one_in(random, 2);
    rival->ends = one_in(random, 4) ? 0 : random_ends(job, random);
}

void random_rivals(struct job *job, struct random *random, uint8_t lamps, uint8_t count)
{
    struct rival rivals[MOST_RIVALS];
    uint8_t line[RIVAL_LAMPS];
    choose_kinds(job, random, line, lamps);
    for (uint8_t i = 0; i < count; i++) {
        memcpy(rivals[i].line, line, lamps);
        random_rival(&rivals[i], job, random, lamps);
        rivals[i].becomes = one_in(random, 4) ? (uint8_t)below(random, count) : i;
    }
    rivals[count - 1].ends = random_ends(job, random);
    rivals[count - 1].becomes = count - 1;
    rival_job(job, lamps, rivals, count);
}

/* ---- Rivals in step ---- */

void rivals_in_step(struct job *job)
{
    struct rival rivals[MOST_RIVALS] = {{{0}, false, 0, 0}};
    const uint8_t count = job->worlds - 1;
    for (uint8_t i = 0; i < count; i++) {
        memset(rivals[i].line, job->kinds, RIVAL_LAMPS);
        rivals[i].becomes = i;
    }
    rivals[count - 1].ends = (uint16_t)(1u << job->last_end);
    rival_job(job, RIVAL_LAMPS, rivals, count);
}

/* ---- Known ones ---- */

enum { END_0 = 1 << 0, END_1 = 1 << 1, END_2 = 1 << 2 };

static const struct {
    uint8_t lamps;
    struct rival rivals[2];
} known[KNOWN_RIVALS] = {
    [RIVALS_KIND] = {1, {{{2}, true, 0, 0}, {{1}, true, 0, 1}}},
    [RIVALS_FIRST_KIND] = {2, {{{2, 1}, true, 0, 0}, {{1, 2}, true, 0, 1}}},
    [RIVALS_LAST_KIND] = {2, {{{1, 2}, true, 0, 0}, {{1, 1}, true, 0, 1}}},
    [RIVALS_SAME_MIDDLE] = {3, {{{2, 1, 1}, true, 0, 0}, {{1, 1, 2}, true, 0, 1}}},
    [RIVALS_KIND_OR_END] = {1, {{{2}, false, END_0, 0}, {{1}, false, END_1, 1}}},
    [RIVALS_KIND_OR_LAMP] = {1, {{{2}, true, 0, 0}, {{1}, false, END_1, 1}}},
    [RIVALS_END] = {0, {{{0}, false, END_1, 0}, {{0}, false, END_0, 1}}},
    [RIVALS_LONG_END] = {2, {{{1, 2}, false, END_1, 0}, {{1, 2}, false, END_0, 1}}},
    [RIVALS_TWO_ENDS] = {1, {{{1}, false, END_2, 0}, {{1}, false, END_0 | END_1, 1}}},
    [RIVALS_LAMP] = {1, {{{1}, false, END_1, 0}, {{1}, true, 0, 1}}},
    [RIVALS_LONG_LAMP] = {2, {{{1, 2}, false, END_1, 0}, {{1, 2}, true, 0, 1}}},
    [RIVALS_END_0_OR_LAMP] = {1, {{{1}, false, END_0, 0}, {{1}, true, 0, 1}}},
    [RIVALS_SAME_END] = {1, {{{1}, false, END_1, 0}, {{1}, false, END_1, 1}}},
    [RIVALS_SAME_LAMP] = {1, {{{1}, true, 0, 0}, {{1}, true, 0, 1}}},
    [RIVALS_JOINED] = {1, {{{1}, false, END_1, 0}, {{1}, false, 0, 0}}},
    [RIVALS_LONG_JOINED] = {2, {{{1, 1}, false, END_1, 0}, {{1, 1}, false, 0, 0}}},
    [RIVALS_JOINED_APART] = {2, {{{2, 1}, false, END_1, 0}, {{1, 1}, false, 0, 0}}},
};

void known_rivals(struct job *job, enum known_rivals which, bool mirrored)
{
    struct rival rivals[2];
    memset(job->gap, 0, sizeof job->gap);
    job->kinds = 2;
    job->last_end = 2;
    for (uint8_t i = 0; i < 2; i++) {
        rivals[i] = known[which].rivals[i != mirrored];
        rivals[i].becomes = rivals[i].becomes != mirrored;
    }
    rival_job(job, known[which].lamps, rivals, 2);
}
