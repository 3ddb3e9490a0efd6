/* What the test cases share. */
#include "cases.h"

#include "job_files/check_answers.h"

#include <inttypes.h>
#include <stdio.h>

enum { MOST_PRINTED = 20 };

unsigned compared, differing;

void expect(const char *what, uint64_t got, uint64_t wanted)
{
    compared++;
    if (got != wanted && ++differing <= MOST_PRINTED)
        printf("%s: %016" PRIx64 " instead of %016" PRIx64 "\n", what, got, wanted);
}

void print_row(const char *title, const unsigned *numbers, unsigned count)
{
    unsigned sum = 0;
    printf("%-28s", title);
    for (unsigned i = 0; i < count; i++) {
        printf("%6u", numbers[i]);
        sum += numbers[i];
    }
    printf("   sum %u\n", sum);
}

uint64_t ending(unsigned code, uint32_t count)
{
    return (uint64_t)code << 8 | (uint64_t)count << 32;
}

uint64_t failing(unsigned kind, unsigned start, uint32_t lamps, unsigned end)
{
    return (uint64_t)start << 16 | (uint64_t)end << 24 | ending(kind, lamps);
}

uint64_t refused(unsigned refusal)
{
    return ending(255, 0) | refusal;
}

uint64_t cabinet(unsigned refusal, unsigned state, uint32_t lamps)
{
    return (refusal == 0 ? 0 : refused(refusal)) | (uint64_t)state << 16 | ending(0, lamps);
}

/* ---- The job at hand ---- */

struct job job;
struct file file;

void write_job(void)
{
    static struct random gap_bytes;
    write_file(&file, &job, &gap_bytes);
}

void take_bench(enum bench_variant variant)
{
    bench_line(&job, variant);
    write_job();
}

void take_three_ends(void)
{
    three_ends_job(&job);
    write_job();
}

void take_street(void)
{
    street_job(&job);
    write_job();
}

void take_final(uint8_t worlds, uint8_t kinds, uint8_t ends, const uint8_t *goal)
{
    job = (struct job){.actions = 1, .worlds = worlds, .kinds = kinds, .results = 1, .last_end = ends - 1};
    memset(job.starts, 1, worlds);
    for (unsigned world = 0; world < worlds; world++)
        memcpy(job.goal[world], goal + world * columns_of(&job), columns_of(&job));
    write_job();
}

void expect_run(const char *what, const uint8_t *line, size_t lamps, uint8_t end, uint32_t limit, uint64_t wanted)
{
    expect(what, plain_run(file.bytes, file.size, 0, line, lamps, end, limit), wanted);
}

/* ---- What is lent ---- */

enum { LENT_BYTE = 165 };

struct lent lent;

/* The first byte is LENT_BYTE, and each other one equals that before it: memcmp is quick, and this is asked often. */
static bool kept(const void *lent_bytes, size_t count)
{
    const uint8_t *const bytes = lent_bytes;
    return count == 0 || (bytes[0] == LENT_BYTE && memcmp(bytes + 1, bytes, count - 1) == 0);
}

static uint64_t call_check(check_call *call, struct lent *to, struct sizes sizes)
{
    memset(to, LENT_BYTE, sizeof *to);
    return call(file.bytes, file.size, to->line, sizes.line, to->list, sizes.list, to->words, sizes.words);
}

static uint64_t call_check_up_to(check_up_to_call *call, uint16_t longest, struct lent *to, struct sizes sizes)
{
    memset(to, LENT_BYTE, sizeof *to);
    return call(file.bytes, file.size, longest, to->line, sizes.line, to->list, sizes.list, to->words, sizes.words);
}

/* What is lent to the form that remembers; to the other it is `lent`. */
static struct lent remembering;

static void expect_equal_forms(uint64_t remembered, uint64_t walked)
{
    expect("the check that remembers", remembered, walked);
    expect("what is lent to the check that remembers", memcmp(&remembering, &lent, sizeof lent) == 0, true);
}

uint64_t check_with(struct sizes sizes)
{
    const uint64_t answer = call_check(plain_check, &lent, sizes);
    expect_equal_forms(call_check(plain_check_remembering, &remembering, sizes), answer);
    return answer;
}

uint64_t check_up_to_with(uint16_t longest, struct sizes sizes)
{
    const uint64_t answer = call_check_up_to(plain_check_up_to, longest, &lent, sizes);
    expect_equal_forms(call_check_up_to(plain_check_up_to_remembering, longest, &remembering, sizes), answer);
    return answer;
}

static void expect_kept(struct sizes least, uint64_t answer)
{
    const uint32_t lamps = lamps_written(answer);
    expect("what is after the line", kept(lent.line + lamps, sizeof lent.line - lamps), true);
    expect("what is after the list", kept(lent.list + least.list, sizeof lent.list - least.list * sizeof lent.list[0]), true);
    expect("what is after the words", kept(lent.words + least.words, sizeof lent.words - least.words * sizeof lent.words[0]),
           true);
}

uint64_t check(void)
{
    const struct sizes least = enough(&job);
    const uint64_t answer = check_with(least);
    expect_kept(least, answer);
    return answer;
}

uint64_t check_up_to(uint16_t longest)
{
    const struct sizes least = enough(&job);
    const uint64_t answer = check_up_to_with(longest, least);
    expect_kept(least, answer);
    return answer;
}

/* 02, (b), changes no size: a line of few lamps needs the same buffers. */
void expect_refused_check(const char *what, struct sizes sizes, unsigned refusal)
{
    const uint16_t longest[] = {0, 1, NESSFLURRY_MAX_LAMPS};
    expect(what, check_with(sizes), refused(refusal));
    expect("the buffers of a refused check", kept(&lent, sizeof lent), true);
    for (size_t i = 0; i < sizeof longest / sizeof *longest; i++) {
        expect(what, check_up_to_with(longest[i], sizes), refused(refusal));
        expect("the buffers of a refused check up to a number of lamps", kept(&lent, sizeof lent), true);
    }
}

/* Every other argument is as wrong as can be, since the file's number comes before those of the call. */
void expect_refused_file(const char *what, unsigned refusal)
{
    uint16_t head[NESSFLURRY_HEAD_SIZE];
    const uint8_t line[] = {0};
    memset(head, LENT_BYTE, sizeof head);
    expect(what, plain_read(file.bytes, file.size, head), refused(refusal));
    expect("the head of a refused file", kept(head, sizeof head), true);
    expect(what, plain_walk(file.bytes, file.size, 255, 255, 255), refused(refusal));
    expect(what, plain_run(file.bytes, file.size, 255, line, 1, 255, 0), refused(refusal));
    expect_refused_check(what, (struct sizes){0, 0, 0}, refusal);
    expect(what, plain_begin(file.bytes, file.size, 3), refused(refusal));
    expect(what, plain_action(file.bytes, file.size, 255, 3), refused(refusal));
    expect(what, plain_report(file.bytes, file.size, 255, 3, 255), cabinet(refusal, 255, 3));
    expect(what, plain_replay(file.bytes, file.size, (const uint8_t[]){255, 255, 255}, 3), refused(refusal));
}
