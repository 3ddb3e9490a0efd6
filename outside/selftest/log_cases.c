/* Logs of small random jobs against all lines: of executions, these with slight changes, others, and all short ones. */
#include "brute_replay.h"
#include "cases.h"
#include "small_jobs.h"

#include <stdio.h>

enum { RANDOM_JOBS = 6000, SEED = 20112 };

/* Logs by the first impossible entry, with the possible ones after all of them. */
static unsigned logs[BRUTE_ENTRIES + 1];

static struct log made;

static void try_log(void)
{
    const uint64_t answer = expect_replay_as_brute(&made);
    logs[nessflurry_code_of(answer) == NESSFLURRY_POSSIBLE ? BRUTE_ENTRIES : nessflurry_place_of(answer)]++;
}

/* ---- Random logs ---- */

/* The log of an execution, and then changed once and once more. An entry is left free for what a change adds. */
static void try_made_log(struct random *random)
{
    uint8_t line[BRUTE_ENTRIES];
    const uint32_t lamps = below(random, BRUTE_ENTRIES + 1), most = below(random, BRUTE_ENTRIES - 1);
    const uint8_t start = marked_start(&job, random), end = choose_end(&job, random);
    struct execution at = begun(&job, start, line, lamps, end);
    choose_kinds(&job, random, line, lamps);
    made.size = 0;
    add_steps(&made, &at, most);
    for (int changes = 0; changes < 2; changes++) {
        try_log();
        change_log(&made, &job, random);
    }
    try_log();
}

static void try_plan_log(struct random *random)
{
    made.size = 0;
    add_plan_entries(&made, &job, random, below(random, BRUTE_ENTRIES + 1));
    try_log();
}

/* ---- All logs ---- */

/* The next log of as many entries, the last byte changing first; false after the last such log. */
static bool next_log(void)
{
    for (size_t at = made.size; at > 0; at--) {
        if (++made.bytes[at - 1] < (at % 2 == 0 ? job.results : job.actions))
            return true;
        made.bytes[at - 1] = 0;
    }
    return false;
}

/* The greatest number of entries, up to five, with which logs are not too many. */
static size_t entries_of_few(void)
{
    enum { MANY = 1000, MOST = 5 };
    size_t entries = 0;
    for (uint32_t count = 1; entries < MOST && (count *= (uint32_t)job.actions * job.results) <= MANY;)
        entries++;
    return entries;
}

static void try_all_logs(void)
{
    const size_t most = entries_of_few();
    for (size_t entries = 0; entries <= most; entries++) {
        made.size = 2 * entries;
        memset(made.bytes, 0, made.size);
        do
            try_log();
        while (next_log());
    }
}

void log_cases(void)
{
    struct random random = {SEED};
    for (unsigned count = 0; count < RANDOM_JOBS; count++) {
        small_job(&job, &random);
        write_job();
        try_plan_log(&random);
        for (int more = 0; more < 3; more++)
            try_made_log(&random);
        if (count % 10 == 0)
            try_all_logs();
    }
    printf("logs of %d random jobs\n", RANDOM_JOBS);
    print_row("impossible from 0 to 7 on", logs, BRUTE_ENTRIES);
    print_row("possible", logs + BRUTE_ENTRIES, 1);
}
