/*
 * One start alone. What a check answers of several is the failure that comes first among those of each: all but the order is
 * the same whether there are others or not (02, (f)).
 */
#include "calls.h"
#include "tally.h"
#include "trials.h"

/* The trial's file with this start alone becomes the one that is lent. */
static void leave_start(struct trial *trial, uint8_t start)
{
    static struct file alone;
    alone.size = trial->file.size;
    memcpy(alone.bytes, trial->file.bytes, alone.size);
    uint8_t *starts = alone.bytes + part_offset(&alone, STARTS);
    memset(starts, 0, trial->job.worlds);
    starts[start] = 1;
    take_file(&alone, &trial->random);
}

/* The other failure is that of another start, on a line as long. It is counted if its line is one on which the plan fails so. */
static void try_rival(const struct trial *trial, const struct failure *told, const struct failure *other)
{
    uint8_t start = nessflurry_start_of(other->answer), end = nessflurry_end_of(other->answer);
    uint64_t ending = compare_run(start, other->line, nessflurry_lamps_of(other->answer), end, UINT32_MAX);
    bool fails_so = nessflurry_code_of(ending) == nessflurry_code_of(other->answer);
    demand(fails_so, "the named failure, from the run of the failing line of one start");
    if (fails_so)
        count_rivalry(start < nessflurry_start_of(told->answer), rivalry_of(&trial->job, told, other));
}

static void try_start_alone(struct trial *trial, uint8_t start, const struct failure *told)
{
    static struct failure other;
    leave_start(trial, start);
    other.answer = compare_check(NO_BOUND, enough(&trial->job), other.line, &trial->random);
    uint16_t lamps = nessflurry_lamps_of(told->answer);
    if (start == nessflurry_start_of(told->answer)) {
        demand(other.answer == told->answer, "from the named start alone the same failure");
        demand(memcmp(other.line, told->line, lamps) == 0, "from the named start alone the same line");
    } else if (nessflurry_code_of(other.answer) != NESSFLURRY_ACCEPTED) {
        bool later = comes_first(told, &other) && !comes_first(&other, told);
        demand(later, "no failure from another start alone before the one that is told");
        if (later && nessflurry_lamps_of(other.answer) == lamps)
            try_rival(trial, told, &other);
    }
}

/* Each start of a small job; some of a larger one. */
static void try_several(struct trial *trial, const struct failure *told)
{
    if (trial->job.worlds > 8) {
        for (int more = 0; more < 3; more++)
            try_start_alone(trial, marked_start(&trial->job, &trial->random), told);
        return;
    }
    for (uint8_t start = 0; start < trial->job.worlds; start++)
        if (trial->job.starts[start])
            try_start_alone(trial, start, told);
}

void try_starts_alone(struct trial *trial, const struct failure *told)
{
    try_several(trial, told);
    take_file(&trial->file, &trial->random);
}
