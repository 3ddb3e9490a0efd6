#include "old_answers.h"

#include "job_files/arguments.h"
#include "job_files/check_answers.h"
#include "job_files/damage.h"
#include "job_files/families.h"
#include "job_files/logs.h"
#include "sides.h"
#include "tally.h"

#include <inttypes.h>
#include <stdio.h>

enum { FILES = 10000 };

/*
 * The answers that the plain implementation of version 1 of nessflurry.h, which knew no end kinds, gives on these files. They are
 * made from random numbers, so this number depends on what job_files/ draws for them as much as on the answers. Where a draw
 * moves, it is made anew: as answers_of the plain side, with this file and the present job_files/ compiled against plain*.c and
 * nessflurry.h of version 1, in which a run is handed no end. Where a request moves answers on files of one end kind, the same
 * change is made in that plain*.c first. This was done for (f): among equally long failing lines the start is compared last.
 */
#define OLD_ANSWERS UINT64_C(0x2DADD9675AE36151)

/* All answers so far, as one number. */
static struct random answers;

static void add(uint64_t word)
{
    answers.state ^= word;
    answers.state = random_word(&answers);
}

static struct job job;
static struct file file;
static uint8_t line[NESSFLURRY_LINE_SIZE];

/* A job's file, or every fourth time one with some bytes overwritten. */
static void make_file(uint32_t number, struct random *random)
{
    one_end_job(&job, random);
    write_file(&file, &job, random);
    if (number % 4 != 0)
        return;
    scramble(&file, random);
    file.bytes[6] = 0;
}

/* The numbers that version 1 answered, which has not got byte 6 among them. */
static void add_read(const struct side *side)
{
    uint16_t head[NESSFLURRY_HEAD_SIZE] = {0};
    add(side->read(file.bytes, file.size, head));
    for (int i = NESSFLURRY_HEAD_ACTIONS; i <= NESSFLURRY_HEAD_FIRST_STATE; i++)
        add(head[i]);
    for (int i = NESSFLURRY_HEAD_MARKS_OFFSET; i <= NESSFLURRY_HEAD_PLAN_LENGTH; i++)
        add(head[i]);
}

static void add_walk(const struct side *side, struct random *random)
{
    uint8_t state = (uint8_t)below(random, job.states + 2u), world = (uint8_t)below(random, job.worlds + 1u);
    uint8_t column = (uint8_t)below(random, job.kinds + 2u);
    add(side->walk(file.bytes, file.size, state, world, column));
}

/* A run, and the replay of its log with a slight change. */
static void add_run(const struct side *side, struct random *random)
{
    static struct log log;
    uint8_t start = marked_start(&job, random);
    size_t lamps = below(random, 21);
    uint32_t limit = one_in(random, 2) ? UINT32_MAX : below(random, 60);
    struct execution at = begun(&job, start, line, lamps, 0);
    choose_kinds(&job, random, line, lamps);
    add(side->run(file.bytes, file.size, start, line, lamps, 0, limit));
    log.size = 0;
    add_steps(&log, &at, 40);
    change_log(&log, &job, random);
    add(side->replay(file.bytes, file.size, log.bytes, log.size));
}

static void add_cabinet(const struct side *side, struct random *random)
{
    uint8_t state = (uint8_t)below(random, job.states + 2u), result = (uint8_t)below(random, job.results + 1u);
    uint16_t lamps = (uint16_t)below(random, 3);
    add(side->begin(file.bytes, file.size, lamps));
    add(side->action(file.bytes, file.size, state, lamps));
    add(side->report(file.bytes, file.size, state, lamps, result));
}

static void add_failing_line(uint64_t answer)
{
    add(answer);
    for (uint32_t lamp = 0; lamp < lamps_written(answer) && lamp < NESSFLURRY_LINE_SIZE; lamp++)
        add(line[lamp]);
}

static void add_checks(const struct side *side, struct random *random)
{
    static uint32_t list[NESSFLURRY_LIST_SIZE];
    static uint64_t words[NESSFLURRY_WORDS_SIZE];
    add_failing_line(side->check(file.bytes, file.size, line, NESSFLURRY_LINE_SIZE, list, NESSFLURRY_LIST_SIZE, words,
                                 NESSFLURRY_WORDS_SIZE));
    add_failing_line(side->check_up_to(file.bytes, file.size, (uint16_t)below(random, 8), line, NESSFLURRY_LINE_SIZE, list,
                                       NESSFLURRY_LIST_SIZE, words, NESSFLURRY_WORDS_SIZE));
}

static uint64_t answers_of(const struct side *side)
{
    answers.state = 0;
    for (uint32_t number = 0; number < FILES; number++) {
        struct random random = {number};
        make_file(number, &random);
        add_read(side);
        for (int more = 0; more < 4; more++)
            add_walk(side, &random);
        for (int more = 0; more < 3; more++)
            add_run(side, &random);
        add_cabinet(side, &random);
        add_checks(side, &random);
    }
    return answers.state;
}

void compare_old_answers(void)
{
    for (int i = 0; i < SIDES; i++) {
        uint64_t now = answers_of(&sides[i]);
        if (now == OLD_ANSWERS)
            continue;
        printf("difference: %s has not the old answers on files of one end kind (%016" PRIx64 ")\n", sides[i].name, now);
        count_difference();
    }
}
