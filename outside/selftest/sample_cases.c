/*
 * The files in samples/, which are looked for in the repository's root. Some are of jobs, or of rules, which other cases are
 * about, or of such a job with a mistake in its plan. Beside each job is the line that the program prints for it.
 */
#define _POSIX_C_SOURCE 200809L
#include "cases.h"
#include "job_files/families.h"
#include "job_files/rules_files.h"

#include <glob.h>
#include <stdio.h>

static struct file sample;

/* A file that cannot be read has no bytes. */
static void read_sample(const char *name)
{
    FILE *const from = fopen(name, "rb");
    expect(name, from != NULL, true);
    sample.size = 0;
    if (from == NULL)
        return;
    sample.size = fread(sample.bytes, 1, sizeof sample.bytes, from);
    fclose(from);
}

static void expect_bytes(const char *name, const void *bytes, size_t size)
{
    read_sample(name);
    expect(name, sample.size, size);
    expect(name, memcmp(sample.bytes, bytes, size) == 0, true);
}

/* ---- Known jobs and rules ---- */

/* The job at hand. */
static void expect_sample(const char *name)
{
    write_job();
    expect_bytes(name, file.bytes, file.size);
}

static void expect_street_rules(void)
{
    static struct rules rules;
    known_rules(&rules, RULES_OF_STREET);
    expect_bytes("samples/street.rules", rules.bytes, rules.size);
}

static void expect_three_ends(void)
{
    take_three_ends();
    expect_sample("samples/three_ends.job");
    job.target[0][FUSE_BOX] = NONE;
    expect_sample("samples/three_ends_no_fuse_box.job");
}

/* A look's result is the lamp's kind. */
static void expect_street(void)
{
    enum { LIT = 1, DARK = 2 };
    take_street();
    expect_sample("samples/street.job");
    job.target[0][DARK] = job.target[0][LIT];
    expect_sample("samples/street_left_dark.job");
}

/* The least numbers with which counting goes as far as with the largest. */
static void expect_counting(void)
{
    job = (struct job){0};
    set_numbers(&job, (struct job_numbers){.actions = 8, .worlds = 64, .kinds = 7, .results = 8, .states = 64});
    counting_job(&job, 64);
    expect_sample("samples/fails_from_3585_lamps.job");
}

static void known_samples(void)
{
    take_bench(BENCH_G);
    expect_sample("samples/bench_g.job");
    example_job(&job);
    expect_sample("samples/walk.job");
    expect_three_ends();
    expect_street();
    expect_counting();
    expect_street_rules();
}

/* ---- Lines ---- */

/* The line that the program prints, and how long it is: with room for a word, five numbers and the kind of each lamp. */
static char text[100 + 4 * NESSFLURRY_LINE_SIZE];
static size_t text_size;

static void put_word(const char *word) { text_size = (size_t)sprintf(text, "%s", word); }
static void put_number(uint32_t number) { text_size += (size_t)sprintf(text + text_size, " %u", (unsigned)number); }

static void put_failure(uint64_t answer)
{
    const uint16_t lamps = nessflurry_lamps_of(answer);
    put_word("fails");
    put_number(nessflurry_code_of(answer));
    put_number(nessflurry_start_of(answer));
    put_number(lamps);
    for (unsigned lamp = 0; lamp < lamps; lamp++)
        put_number(lent.line[lamp]);
    put_number(nessflurry_end_of(answer));
}

static void put_answer(uint64_t answer)
{
    if (nessflurry_code_of(answer) == NESSFLURRY_REFUSED) {
        put_word("refused");
        put_number(nessflurry_refusal_of(answer));
    } else if (nessflurry_code_of(answer) == NESSFLURRY_ACCEPTED) {
        put_word("accepted");
        put_number(nessflurry_pairs_of(answer));
    } else {
        put_failure(answer);
    }
    text[text_size++] = '\n';
}

/* NAME.line stands beside NAME.job. */
static void expect_line(const char *job_name)
{
    char line_name[64];
    snprintf(line_name, sizeof line_name, "%.*s.line", (int)(strlen(job_name) - strlen(".job")), job_name);
    read_sample(job_name);
    file = sample;
    put_answer(check_with((struct sizes){NESSFLURRY_LINE_SIZE, NESSFLURRY_LIST_SIZE, NESSFLURRY_WORDS_SIZE}));
    expect_bytes(line_name, text, text_size);
}

void sample_cases(void)
{
    glob_t jobs = {0};
    known_samples();
    expect("samples/*.job", (uint64_t)glob("samples/*.job", 0, NULL, &jobs), 0);
    for (size_t i = 0; i < jobs.gl_pathc; i++)
        expect_line(jobs.gl_pathv[i]);
    globfree(&jobs);
}
