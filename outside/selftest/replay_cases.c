/*
 * Logs of bench line G, of its variants, of a job of three end kinds and of jobs made for the purpose, with what 02, (a), owes;
 * short ones also against all lines.
 */
#include "brute_replay.h"
#include "cases.h"

/* The bytes of a log, and their number. */
#define LOG(...) (const uint8_t[]){__VA_ARGS__}, sizeof (const uint8_t[]){__VA_ARGS__}

static struct log given;

static void expect_replay(const char *what, uint64_t wanted)
{
    expect(what, plain_replay(file.bytes, file.size, given.bytes, given.size), wanted);
}

static void expect_log(const char *what, uint64_t wanted, const uint8_t *bytes, size_t size)
{
    memcpy(given.bytes, bytes, size);
    given.size = size;
    expect_replay(what, wanted);
    if (nessflurry_code_of(wanted) != NESSFLURRY_REFUSED && size / 2 <= BRUTE_ENTRIES)
        expect_replay_as_brute(&given);
}

static void expect_possible(const char *what, const uint8_t *bytes, size_t size)
{
    expect_log(what, ending(NESSFLURRY_POSSIBLE, 0), bytes, size);
}

static void expect_place(const char *what, uint32_t place, const uint8_t *bytes, size_t size)
{
    expect_log(what, ending(NESSFLURRY_IMPOSSIBLE, place), bytes, size);
}

static void expect_refused_log(const char *what, const uint8_t *bytes, size_t size)
{
    expect_log(what, refused(21), bytes, size);
}

/* ---- Bench line G: actions 0 peek, 1 test, 2 next, 3 flag ---- */

static void bench_logs(void)
{
    take_bench(BENCH_G);
    expect("no entry", plain_replay(file.bytes, file.size, NULL, 0), ending(NESSFLURRY_POSSIBLE, 0));
    expect_possible("the empty line", LOG(0, 0));
    expect_possible("a lamp, and no more entries", LOG(0, 1));
    expect_possible("[1,2]", LOG(0, 1, 1, 0, 2, 0, 0, 1, 1, 1, 3, 0, 2, 0, 0, 0));
    expect_place("[1,2], and an entry after the end", 8, LOG(0, 1, 1, 0, 2, 0, 0, 1, 1, 1, 3, 0, 2, 0, 0, 0, 0, 0));
    expect_place("a peek after the end", 1, LOG(0, 0, 0, 0));
    expect_place("a lamp after the end", 1, LOG(0, 0, 0, 1));
    expect_place("a sound lamp flagged", 2, LOG(0, 1, 1, 0, 3, 0));
    expect_place("a faulty lamp not flagged", 2, LOG(0, 1, 1, 1, 2, 0));
    expect_place("not the first action", 0, LOG(1, 0, 2, 0));
    expect_place("a result that next never has", 2, LOG(0, 1, 1, 0, 2, 1));
    expect_place("the line's end, though a lamp was peeked at", 2, LOG(0, 1, 1, 0, 0, 0));
    expect_possible("only the second lamp is faulty", LOG(0, 1, 1, 0, 2, 0, 0, 1, 1, 1, 3, 0));
}

static void variant_logs(void)
{
    take_bench(BENCH_END_UNFORESEEN);
    expect_place("no branch at the empty line's end", 0, LOG(0, 0));
    expect_place("no branch at the end after a lamp", 3, LOG(0, 1, 1, 0, 2, 0, 0, 0));
    expect_possible("a plan that fails on every line", LOG(0, 1, 1, 0, 2, 0, 0, 1));
    take_bench(BENCH_FIVE_STATES);
    expect_place("no branch at the second lamp", 3, LOG(0, 1, 1, 0, 2, 0, 0, 1));
    expect_possible("the end after the first lamp", LOG(0, 1, 1, 0, 2, 0, 0, 0));
    take_bench(BENCH_ENDS_AT_ONCE);
    expect_possible("no entry of a plan without steps", given.bytes, 0);
    expect_place("an entry of a plan without steps", 0, LOG(0, 0));
    take_bench(BENCH_FIRST_TEST);
    expect_possible("another first state", LOG(1, 0, 2, 0, 0, 0));
    expect_place("state 0, which is not the first", 0, LOG(0, 1));
}

/* Entries without a lamp being passed between them are about the same lamp. */
static void same_lamp(void)
{
    take_bench(BENCH_G);
    job.action[0] = 1;
    memset(job.target[0], 1, job.results);
    write_job();
    expect_place("tested twice, first sound, then faulty", 1, LOG(1, 0, 1, 1));
    expect_place("tested twice, first faulty, then sound", 1, LOG(1, 1, 1, 0));
    expect_possible("tested twice, sound", LOG(1, 0, 1, 0, 2, 0));
    expect_possible("tested twice, faulty", LOG(1, 1, 1, 1, 3, 0, 2, 0));
    expect_possible("then another lamp", LOG(1, 0, 1, 0, 2, 0, 1, 1, 1, 1));
    take_bench(BENCH_G);
    job.target[0][0] = 0;
    write_job();
    expect_possible("the end, peeked at twice", LOG(0, 0, 0, 0));
    expect_place("a lamp after the line's end", 1, LOG(0, 0, 0, 1));
    expect_place("a lamp after the end of [1]", 4, LOG(0, 1, 1, 0, 2, 0, 0, 0, 0, 1));
}

/* ---- Worlds ---- */

/* Action 0 tells the world and keeps it, in every column; the plan does nothing else, and branches on every result. */
static void take_telling(uint8_t worlds, uint8_t kinds, uint8_t ends)
{
    job = (struct job){.actions = 1, .worlds = worlds, .kinds = kinds, .results = 8, .states = 1, .last_end = ends - 1};
    for (uint8_t world = 0; world < worlds; world++)
        for (uint8_t column = 0; column < columns_of(&job); column++)
            job.cells[0][world][column] = (struct cell){world, world % 8};
}

static void starts(void)
{
    take_telling(3, 1, 1);
    job.starts[0] = job.starts[2] = 1;
    write_job();
    expect_possible("the lowest start", LOG(0, 0, 0, 0));
    expect_possible("another start", LOG(0, 2, 0, 2));
    expect_place("a world that is no start", 0, LOG(0, 1));
    expect_place("two starts at once", 1, LOG(0, 0, 0, 2));
    expect_place("a world that there is not", 0, LOG(0, 3));
}

/* Only the highest world in this column gives result 7. */
static void expect_told(uint8_t kinds, uint8_t ends, uint8_t told)
{
    take_telling(64, kinds, ends);
    memset(job.starts, 1, sizeof job.starts);
    for (unsigned world = 0; world < 64; world++)
        for (unsigned column = 0; column < columns_of(&job); column++)
            job.cells[0][world][column].result = world == 63 && column == told ? 7 : 0;
    write_job();
    expect_possible("the highest world in a column", LOG(0, 7, 0, 7));
    expect_possible("any other world or column", LOG(0, 0, 0, 0));
    expect_place("the highest world in a column, and then no more", 1, LOG(0, 7, 0, 0));
    expect_place("the highest world in a column, and not before", 1, LOG(0, 0, 0, 7));
    job.starts[63] = 0;
    write_job();
    expect_place("the highest world not marked", 0, LOG(0, 7));
}

/* At the lamp of the highest kind, and at each of several kinds of end. */
static void highest_world_in_each_column(void)
{
    expect_told(15, 1, 15);
    for (uint8_t ends = 1; ends <= MOST_ENDS; ends++)
        for (uint8_t column = 0; column <= ends; column++)
            expect_told(1, ends, column);
}

/* Action 0 passes a lamp, whose kind only the world tells afterwards; action 1 tells the world. The plan passes two lamps. */
static void told_afterwards(void)
{
    job = (struct job){.actions = 2, .worlds = 2, .kinds = 2, .results = 2, .states = 3, .marks = {1, 0}, .starts = {1, 0}};
    for (uint8_t world = 0; world < 2; world++)
        for (uint8_t column = 0; column <= 2; column++) {
            job.cells[0][world][column] = column == 0 ? (struct cell){0, NONE} : (struct cell){column - 1, 0};
            job.cells[1][world][column] = (struct cell){world, world};
        }
    for (uint8_t state = 0; state < 3; state++) {
        job.action[state] = state == 2;
        job.target[state][0] = job.target[state][1] = state == 2 ? 2 : state + 1;
    }
    write_job();
    expect_possible("the second lamp was of kind 1", LOG(0, 0, 0, 0, 1, 0, 1, 0));
    expect_possible("the second lamp was of kind 2", LOG(0, 0, 0, 0, 1, 1, 1, 1));
    expect_place("the second lamp was of both kinds", 3, LOG(0, 0, 0, 0, 1, 1, 1, 0));
    expect_place("a lamp passed with a result that is never had", 1, LOG(0, 0, 0, 1));
}

/* ---- Three end kinds: actions 0 look, 1 next, 2 seal, 3 set the fuse; a look tells 0 to 2 at an end, and 3 at a lamp ---- */

static void end_kinds(void)
{
    take_three_ends();
    expect_possible("a cap", LOG(0, 0));
    expect_possible("a joint box", LOG(0, 1, 2, 0));
    expect_possible("a fuse box", LOG(0, 2, 3, 0));
    expect_possible("a joint box after a lamp", LOG(0, 3, 1, 0, 0, 1, 2, 0));
    expect_possible("a fuse box after two lamps", LOG(0, 3, 1, 0, 0, 3, 1, 0, 0, 2, 3, 0));
    expect_place("a fuse set in a joint box", 1, LOG(0, 1, 3, 0));
    expect_place("a fuse box sealed", 1, LOG(0, 2, 2, 0));
    expect_place("an entry after the end at a box", 2, LOG(0, 1, 2, 0, 0, 1));
    expect_place("a lamp passed at a box", 1, LOG(0, 2, 1, 0));
    memset(job.target[0], 0, 3);
    write_job();
    expect_possible("a box, looked at twice", LOG(0, 2, 0, 2));
    expect_place("a joint box that becomes a fuse box", 1, LOG(0, 1, 0, 2));
    expect_place("a fuse box that becomes a cap", 1, LOG(0, 2, 0, 0));
    expect_place("a box that becomes a lamp, after a lamp", 3, LOG(0, 3, 1, 0, 0, 1, 0, 3));
}

/* ---- Long logs ---- */

static void fill(uint8_t action, uint8_t result, size_t entries)
{
    for (given.size = 0; entries > 0; entries--)
        add_entry(&given, action, result);
}

/* A plan that circles may go on, longer than a run counts; and at the lamp where it began to. */
static void circling(void)
{
    take_bench(BENCH_PEEK_FOR_EVER);
    fill(0, 1, 1000);
    expect_replay("1,000 peeks at a lamp", ending(NESSFLURRY_POSSIBLE, 0));
    add_entry(&given, 0, 0);
    expect_replay("1,000 peeks at a lamp, and one at the end", ending(NESSFLURRY_IMPOSSIBLE, 1000));
    fill(0, 1, MOST_ENTRIES);
    expect_replay("32,767 peeks at a lamp", ending(NESSFLURRY_POSSIBLE, 0));
    given.bytes[2 * MOST_ENTRIES - 1] = 0;
    expect_replay("32,766 peeks at a lamp, and one at the end", ending(NESSFLURRY_IMPOSSIBLE, MOST_ENTRIES - 1));
}

/* Every lamp of 10,922 is passed in three steps, and the last entry is the next peek. */
static void long_line(void)
{
    static uint8_t line[MOST_ENTRIES / 3];
    take_bench(BENCH_G);
    memset(line, 1, sizeof line);
    struct execution at = begun(&job, 0, line, sizeof line, 0);
    given.size = 0;
    add_steps(&given, &at, MOST_ENTRIES);
    expect("entries of a long line", entries_of(&given), MOST_ENTRIES);
    expect_replay("a long line to its end", ending(NESSFLURRY_POSSIBLE, 0));
    given.bytes[2 * MOST_ENTRIES - 2] = 1;
    expect_replay("a long line with a wrong last action", ending(NESSFLURRY_IMPOSSIBLE, MOST_ENTRIES - 1));
}

/* ---- Refusals ---- */

static void expect_refused_sizes(const char *what)
{
    const size_t wrong[] = {1, 3, NESSFLURRY_MAX_LOG_SIZE - 1, NESSFLURRY_MAX_LOG_SIZE + 1, NESSFLURRY_MAX_LOG_SIZE + 2};
    for (size_t i = 0; i < sizeof wrong / sizeof *wrong; i++)
        expect(what, plain_replay(file.bytes, file.size, given.bytes, wrong[i]), refused(20));
}

/* Whatever the log is: possible, impossible, or with entries out of range. */
static void log_sizes(void)
{
    take_bench(BENCH_PEEK_FOR_EVER);
    fill(0, 1, MOST_ENTRIES + 1);
    expect_refused_sizes("a size that no log has");
    fill(1, 0, MOST_ENTRIES + 1);
    expect_refused_sizes("a size that no log has, and not the plan's actions");
    fill(255, 255, MOST_ENTRIES + 1);
    expect_refused_sizes("a size that no log has, and bytes out of range");
}

/* The entries before it are impossible, or the plan has ended there. */
static void log_entries(void)
{
    take_bench(BENCH_G);
    expect_refused_log("an action not below A", LOG(4, 0));
    expect_refused_log("a result not below R", LOG(0, 2));
    expect_refused_log("result 255", LOG(0, 255));
    expect_refused_log("action 255 after the end", LOG(0, 0, 255, 0));
    expect_refused_log("a result out of range in an entry that is not the plan's", LOG(3, 2));
    fill(3, 0, 10);
    given.bytes[18] = 4;
    expect_replay("impossible at once, and an action out of range in entry 9", refused(21));
    fill(3, 0, MOST_ENTRIES);
    given.bytes[2 * MOST_ENTRIES - 1] = 2;
    expect_replay("impossible at once, and a result out of range at last", refused(21));
}

void replay_cases(void)
{
    bench_logs();
    variant_logs();
    same_lamp();
    starts();
    highest_world_in_each_column();
    told_afterwards();
    end_kinds();
    circling();
    long_line();
    log_sizes();
    log_entries();
}
