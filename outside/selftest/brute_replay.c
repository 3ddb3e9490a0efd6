/*
 * Every marked start and every line with every end kind, each execution followed beside the log (02, (a)). The longest beginning
 * that some execution has in common with the log is what is possible of it, and the entry after that is the first impossible one.
 */
#include "brute_replay.h"

#include "brute.h"
#include "cases.h"

/* The entry that the execution's next step would have. */
static bool gives(const struct execution *at, const uint8_t *entry)
{
    return goes_on(at) && entry[0] == due_action(at) && entry[1] == due_result(at);
}

/* How many entries an execution gives before the first that it does not. */
static uint32_t entries_given(struct execution at, const struct log *log)
{
    uint32_t given = 0;
    for (; given < entries_of(log) && gives(&at, &log->bytes[2 * given]); given++)
        take_step(&at);
    return given;
}

/* The most entries that the lines of exactly this many lamps give from one start. */
static uint32_t most_given(uint8_t start, uint32_t lamps, const struct log *log)
{
    uint8_t line[BRUTE_ENTRIES], end = 0;
    uint32_t most = 0;
    memset(line, 1, sizeof line);
    do {
        const uint32_t given = entries_given(begun(&job, start, line, lamps, end), log);
        most = given > most ? given : most;
    } while (next_line(line, lamps, &end));
    return most;
}

/* An entry passes one lamp at most, so no entry of the log depends on more lamps than it has entries. */
static uint64_t brute_replay(const struct log *log)
{
    uint32_t most = 0;
    for (uint32_t lamps = 0; lamps <= entries_of(log); lamps++)
        for (uint8_t start = 0; start < job.worlds; start++) {
            const uint32_t given = job.starts[start] == 1 ? most_given(start, lamps, log) : 0;
            most = given > most ? given : most;
        }
    return most == entries_of(log) ? ending(NESSFLURRY_POSSIBLE, 0) : ending(NESSFLURRY_IMPOSSIBLE, most);
}

uint64_t expect_replay_as_brute(const struct log *log)
{
    const uint64_t wanted = brute_replay(log);
    expect("a replay against all lines", plain_replay(file.bytes, file.size, log->bytes, log->size), wanted);
    return wanted;
}
