/*
 * Reader, one-lamp walk, run and cabinet, in plain_check.c the checks, in plain_replay.c the replay and in plain_rules.c the
 * cells from rules, written from documents 01 and 02 alone; they share nothing with crates/. They are the other side of the
 * tests, which compare every answer with them, and of the benchmark, where the walk is the plain loop. So each thing is done in
 * the way the paper says it, and in no cleverer one; the checks that remember are the exception.
 *
 * "01" in the comments is document 01, followed by the title of the section that is rendered; "02" is document 02, followed
 * by the request.
 */
#include "plain.h"
#include "plain_job.h"

enum { LAST_END_AT = 6, PAIRS_AT = 8, FIRST_PART_AT = 28 }; /* 02, (c); 01, Job file: the least offset of a part */

enum { MARKS, CELLS, STARTS, GOAL, PLAN, PARTS };

/* ---- The reader (01, Job file; Who can cause which number, 1 to 11) ---- */

static unsigned number16(const uint8_t *bytes)
{
    return bytes[0] + 256u * bytes[1];
}

static unsigned offset_of(const uint8_t *file, unsigned part)
{
    return number16(file + PAIRS_AT + 4 * part);
}

static unsigned length_of(const uint8_t *file, unsigned part)
{
    return number16(file + PAIRS_AT + 4 * part + 2);
}

/* E - 1 is at most 15 - C, since E + C is at most 16 (02, (c)). */
static bool numbers_in_range(const uint8_t *file)
{
    return within(file[0], 1, 16) && within(file[1], 1, 64) && within(file[2], 1, 15) && within(file[3], 1, 8)
        && within(file[4], 0, 64) && within(file[5], 0, file[4]) && within(file[LAST_END_AT], 0, 15u - file[2]) && file[7] == 0;
}

static bool parts_in_place(const uint8_t *file, size_t file_size)
{
    unsigned end_before = FIRST_PART_AT;
    for (unsigned part = 0; part < PARTS; part++) {
        const unsigned offset = offset_of(file, part);
        const unsigned end = offset + length_of(file, part);
        if (offset < end_before || end > file_size)
            return false;
        end_before = end;
    }
    return true;
}

static struct job job_in(const uint8_t *file)
{
    const unsigned worlds = file[1], kinds = file[2], results = file[3], ends = file[LAST_END_AT] + 1u, columns = ends + kinds;
    return (struct job){
        .actions = file[0], .worlds = worlds, .kinds = kinds, .results = results, .ends = ends, .columns = columns,
        .final = {file[4]}, .first = {file[5]},
        .action_bytes = 2 * worlds * columns, .world_bytes = 2 * columns, .row_bytes = 1 + results,
        .marks = file + offset_of(file, MARKS),
        .cells = file + offset_of(file, CELLS),
        .starts = file + offset_of(file, STARTS),
        .goal = file + offset_of(file, GOAL),
        .plan = file + offset_of(file, PLAN),
    };
}

static bool lengths_right(const uint8_t *file, const struct job *job)
{
    return length_of(file, MARKS) == job->actions
        && length_of(file, CELLS) == job->actions * job->action_bytes
        && length_of(file, STARTS) == job->worlds
        && length_of(file, GOAL) == job->worlds * job->columns
        && length_of(file, PLAN) == job->final.number * job->row_bytes;
}

static bool all_0_or_1(const uint8_t *bytes, unsigned count)
{
    for (unsigned i = 0; i < count; i++)
        if (bytes[i] > 1)
            return false;
    return true;
}

static bool some_1(const uint8_t *bytes, unsigned count)
{
    for (unsigned i = 0; i < count; i++)
        if (bytes[i] == 1)
            return true;
    return false;
}

static bool cell_in_range(const struct job *job, const uint8_t *cell)
{
    return cell[1] == NONE ? cell[0] == 0 : cell[0] < job->worlds && cell[1] < job->results;
}

static bool cells_in_range(const struct job *job)
{
    const unsigned count = job->actions * job->worlds * job->columns;
    for (unsigned i = 0; i < count; i++)
        if (!cell_in_range(job, job->cells + 2 * i))
            return false;
    return true;
}

static bool legal_at_an_end(const struct job *job, unsigned action)
{
    for (world_state world = {0}; world.number < job->worlds; world.number++)
        for (unsigned end = 0; end < job->ends; end++)
            if (cell_of(job, action, world, end)[1] != NONE)
                return true;
    return false;
}

static bool moving_on_needs_a_lamp(const struct job *job)
{
    for (unsigned action = 0; action < job->actions; action++)
        if (job->marks[action] == 1 && legal_at_an_end(job, action))
            return false;
    return true;
}

static bool actions_in_range(const struct job *job)
{
    for (program_state state = {0}; state.number < job->final.number; state.number++)
        if (row_of(job, state)[0] >= job->actions)
            return false;
    return true;
}

static bool targets_in_range(const struct job *job)
{
    for (program_state state = {0}; state.number < job->final.number; state.number++)
        for (unsigned result = 0; result < job->results; result++) {
            const uint8_t target = row_of(job, state)[1 + result];
            if (target > job->final.number && target != NONE)
                return false;
        }
    return true;
}

/*
 * Each test goes over the whole file before the next begins, so the lowest number is found; and each may rely on
 * those before it.
 */
unsigned read_job(const uint8_t *file, size_t file_size, struct job *job)
{
    if (file_size < FIRST_PART_AT || file_size > NESSFLURRY_MAX_FILE_SIZE)
        return NESSFLURRY_REFUSED_FILE_SIZE;
    if (!numbers_in_range(file))
        return NESSFLURRY_REFUSED_NUMBERS;
    if (!parts_in_place(file, file_size))
        return NESSFLURRY_REFUSED_PART_PLACE;
    *job = job_in(file);
    if (!lengths_right(file, job))
        return NESSFLURRY_REFUSED_PART_LENGTH;
    if (!all_0_or_1(job->marks, job->actions))
        return NESSFLURRY_REFUSED_MARKS;
    if (!cells_in_range(job))
        return NESSFLURRY_REFUSED_CELLS;
    if (!moving_on_needs_a_lamp(job))
        return NESSFLURRY_REFUSED_END_CELLS;
    if (!all_0_or_1(job->starts, job->worlds) || !some_1(job->starts, job->worlds))
        return NESSFLURRY_REFUSED_STARTS;
    if (!all_0_or_1(job->goal, job->worlds * job->columns))
        return NESSFLURRY_REFUSED_GOAL;
    if (!actions_in_range(job))
        return NESSFLURRY_REFUSED_ACTIONS;
    if (!targets_in_range(job))
        return NESSFLURRY_REFUSED_TARGETS;
    return 0;
}

uint64_t plain_read(const uint8_t *file, size_t file_size, uint16_t head[NESSFLURRY_HEAD_SIZE])
{
    struct job job;
    const unsigned refusal = read_job(file, file_size, &job);
    if (refusal != 0)
        return refused(refusal);
    for (unsigned i = NESSFLURRY_HEAD_ACTIONS; i <= NESSFLURRY_HEAD_LAST_END; i++)
        head[i] = file[i];
    for (unsigned part = 0; part < PARTS; part++) {
        head[NESSFLURRY_HEAD_MARKS_OFFSET + 2 * part] = (uint16_t)offset_of(file, part);
        head[NESSFLURRY_HEAD_MARKS_LENGTH + 2 * part] = (uint16_t)length_of(file, part);
    }
    return answered(NESSFLURRY_DONE, 0, 0, 0);
}

/* ---- The walk at one lamp or at the line's end (01, One run) ---- */

/* 01, Who can cause which number: 14 to 16. A world need not be marked here, as a walk may begin in mid-line. */
static unsigned walk_refusal(const struct job *job, struct pair at, unsigned column)
{
    if (at.world.number >= job->worlds)
        return NESSFLURRY_REFUSED_WORLD;
    if (column >= job->columns)
        return NESSFLURRY_REFUSED_LINE;
    if (at.state.number > job->final.number)
        return NESSFLURRY_REFUSED_STATE;
    return 0;
}

uint64_t plain_walk(const uint8_t *file, size_t file_size, uint8_t state, uint8_t world, uint8_t column)
{
    struct job job;
    const struct pair at = {{state}, {world}};
    unsigned refusal = read_job(file, file_size, &job);
    if (refusal == 0)
        refusal = walk_refusal(&job, at, column);
    if (refusal != 0)
        return refused(refusal);
    const struct walked end = walk(&job, at, column);
    return answered(end.code, end.arrived.state.number, end.arrived.world.number, end.steps);
}

/* ---- The run of one line (01, One run) ---- */

static bool kinds_in_range(const struct job *job, const uint8_t *line, size_t lamps)
{
    for (size_t i = 0; i < lamps; i++)
        if (!within(line[i], 1, job->kinds))
            return false;
    return true;
}

/* 01, Who can cause which number: 14 and 15. The whole line and its end kind are tested, wherever its run ends. */
static unsigned run_refusal(const struct job *job, unsigned start, const uint8_t *line, size_t lamps, unsigned end)
{
    if (start >= job->worlds || job->starts[start] != 1)
        return NESSFLURRY_REFUSED_WORLD;
    if (lamps > NESSFLURRY_MAX_LAMPS || !kinds_in_range(job, line, lamps) || end >= job->ends)
        return NESSFLURRY_REFUSED_LINE;
    return 0;
}

/*
 * The walks at the lamps, first to last, and then at the end, where no walk arrives anywhere, since moving on is not
 * legal there. Steps only grow: once they are above the limit, the ending's count would be too. They cannot overflow,
 * as a line of 65,535 lamps has at most 65,536·4,096 of them.
 */
static uint64_t run(const struct job *job, world_state start, const uint8_t *line, size_t lamps, unsigned line_end,
                    uint32_t limit)
{
    struct pair at = {job->first, start};
    uint32_t steps = 0;
    for (size_t passed = 0;; passed++) {
        const struct walked end = walk(job, at, passed < lamps ? lamp_column(job, line[passed]) : line_end);
        steps += end.steps;
        if (steps > limit)
            return answered(NESSFLURRY_STOPPED, 0, 0, limit);
        if (end.code != NESSFLURRY_ARRIVED)
            return answered(end.code, 0, 0, steps);
        at = end.arrived;
    }
}

uint64_t plain_run(const uint8_t *file, size_t file_size, uint8_t start, const uint8_t *line, size_t lamps, uint8_t end,
                   uint32_t limit)
{
    struct job job;
    unsigned refusal = read_job(file, file_size, &job);
    if (refusal == 0)
        refusal = run_refusal(&job, start, line, lamps, end);
    return refusal != 0 ? refused(refusal) : run(&job, (world_state){start}, line, lamps, end, limit);
}

/* ---- The cabinet (01, The cabinet) ---- */

uint64_t plain_begin(const uint8_t *file, size_t file_size, uint16_t lamps)
{
    struct job job;
    const unsigned refusal = read_job(file, file_size, &job);
    return refusal != 0 ? refused(refusal) : answered(NESSFLURRY_DONE, job.first.number, 0, lamps);
}

uint64_t plain_action(const uint8_t *file, size_t file_size, uint8_t state, uint16_t lamps)
{
    (void)lamps; /* the action is that of the program state, however many lamps are left */
    struct job job;
    const unsigned refusal = read_job(file, file_size, &job);
    if (refusal != 0)
        return refused(refusal);
    if (state > job.final.number)
        return refused(NESSFLURRY_REFUSED_STATE);
    if (state == job.final.number)
        return answered(NESSFLURRY_ENDED, 0, 0, 0);
    return answered(NESSFLURRY_ACTION, row_of(&job, (program_state){state})[0], 0, 0);
}

/* 01, Who can cause which number: 16 to 19. */
static unsigned report_refusal(const struct job *job, program_state state, unsigned lamps, unsigned result)
{
    if (state.number > job->final.number)
        return NESSFLURRY_REFUSED_STATE;
    if (state.number == job->final.number)
        return NESSFLURRY_REFUSED_AFTER_END;
    const uint8_t *const row = row_of(job, state);
    if (result >= job->results || row[1 + result] == NONE)
        return NESSFLURRY_REFUSED_RESULT;
    if (job->marks[row[0]] == 1 && lamps == 0)
        return NESSFLURRY_REFUSED_NO_LAMP;
    return 0;
}

uint64_t plain_report(const uint8_t *file, size_t file_size, uint8_t state, uint16_t lamps, uint8_t result)
{
    struct job job;
    unsigned refusal = read_job(file, file_size, &job);
    if (refusal == 0)
        refusal = report_refusal(&job, (program_state){state}, lamps, result);
    if (refusal != 0)
        return refused(refusal) | answered(0, state, 0, lamps); /* the old state, in the fields that a refusal leaves 0 */
    const uint8_t *const row = row_of(&job, (program_state){state});
    const unsigned passed = job.marks[row[0]]; /* an action's mark is the number of lamps that it passes */
    return answered(NESSFLURRY_DONE, row[1 + result], 0, lamps - passed);
}
