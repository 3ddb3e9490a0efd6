/*
 * The replay of the plain implementation (02, (a)). A log tells which program states the plan was in, since each entry's result
 * has one branch; it does not tell the worlds and the line. So one pass over the log keeps every pair of world and column which
 * some start and some line have after the entries so far.
 *
 * "02" in the comments is document 02, followed by the request that is rendered.
 */
#include "plain.h"
#include "plain_job.h"

/* ---- What can be true ---- */

/* The worlds in which the cabinet can be, for each column: bit w stands for world w. */
struct possible {
    uint64_t worlds[MOST_COLUMNS];
};

static uint64_t bit_of(world_state world)
{
    return (uint64_t)1 << world.number;
}

static world_state lowest_in(uint64_t worlds)
{
    return (world_state){(unsigned)__builtin_ctzll(worlds)};
}

/*
 * A lamp that is come to may be of any kind, or there is none and the line ends, in any end kind (02, (c)): no entry so far
 * depends on what is ahead.
 */
static void set_all_columns(const struct job *job, struct possible *now, uint64_t worlds)
{
    for (unsigned column = 0; column < job->columns; column++)
        now->worlds[column] = worlds;
}

static uint64_t marked_starts(const struct job *job)
{
    uint64_t starts = 0;
    for (world_state world = {0}; world.number < job->worlds; world.number++)
        if (job->starts[world.number] == 1)
            starts |= bit_of(world);
    return starts;
}

/* ---- One entry ---- */

/*
 * The plan's target for an entry in this state, or NONE where the plan cannot make it: after its end, with another action than
 * the state's, or with a result for which there is no branch.
 */
static unsigned target_of(const struct job *job, program_state state, const uint8_t *entry)
{
    if (state.number == job->final.number)
        return NONE;
    const uint8_t *const row = row_of(job, state);
    return row[0] == entry[0] ? row[1 + entry[1]] : NONE;
}

/*
 * The worlds that follow on these in a column. Where the action is not legal, the cell's result is NONE, which no entry has.
 * The code does not jump on the result, since a processor would often foresee the jump wrongly.
 */
static uint64_t worlds_after(const struct job *job, const uint8_t *entry, unsigned column, uint64_t worlds)
{
    uint64_t after = 0;
    for (; worlds != 0; worlds &= worlds - 1) {
        const uint8_t *const cell = cell_of(job, entry[0], lowest_in(worlds), column);
        after |= (uint64_t)(cell[1] == entry[1]) << cell[0];
    }
    return after;
}

/* The step of an entry, in every pair that can be true; answers whether there is one in which it can be made. */
static bool step(const struct job *job, const uint8_t *entry, struct possible *now)
{
    uint64_t somewhere = 0;
    for (unsigned column = 0; column < job->columns; column++) {
        now->worlds[column] = worlds_after(job, entry, column, now->worlds[column]);
        somewhere |= now->worlds[column];
    }
    if (job->marks[entry[0]] == 1)
        set_all_columns(job, now, somewhere);
    return somewhere != 0;
}

/* ---- The log ---- */

static bool entries_in_range(const struct job *job, const uint8_t *log, size_t log_size)
{
    for (size_t at = 0; at < log_size; at += 2)
        if (log[at] >= job->actions || log[at + 1] >= job->results)
            return false;
    return true;
}

/* 02, (a): 20 and 21. The whole log is tested, wherever its first impossible entry is. */
static unsigned log_refusal(const struct job *job, const uint8_t *log, size_t log_size)
{
    if (log_size % 2 != 0 || log_size > NESSFLURRY_MAX_LOG_SIZE)
        return NESSFLURRY_REFUSED_LOG_SIZE;
    if (!entries_in_range(job, log, log_size))
        return NESSFLURRY_REFUSED_LOG_ENTRIES;
    return 0;
}

static uint64_t replay(const struct job *job, const uint8_t *log, uint32_t entries)
{
    struct possible now;
    program_state state = job->first;
    set_all_columns(job, &now, marked_starts(job));
    for (uint32_t place = 0; place < entries; place++) {
        const uint8_t *const entry = log + 2 * place;
        const unsigned target = target_of(job, state, entry);
        if (target == NONE || !step(job, entry, &now))
            return answered(NESSFLURRY_IMPOSSIBLE, 0, 0, place);
        state = (program_state){target};
    }
    return answered(NESSFLURRY_POSSIBLE, 0, 0, 0);
}

uint64_t plain_replay(const uint8_t *file, size_t file_size, const uint8_t *log, size_t log_size)
{
    struct job job;
    unsigned refusal = read_job(file, file_size, &job);
    if (refusal == 0)
        refusal = log_refusal(&job, log, log_size);
    return refusal != 0 ? refused(refusal) : replay(&job, log, (uint32_t)(log_size / 2));
}
