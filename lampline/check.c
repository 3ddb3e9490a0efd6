/* The check and the short check: one line for each file, and the failing line step by step if that is asked for. */
#include "commands.h"
#include "files.h"
#include "nessflurry.h"
#include "steps.h"

#include <stdio.h>

/* The sizes are enough for every job. */
static uint8_t line[NESSFLURRY_LINE_SIZE];
static uint32_t list[NESSFLURRY_LIST_SIZE];
static uint64_t words[NESSFLURRY_WORDS_SIZE];

static void print_failure(const char *name, uint64_t answer)
{
    const uint8_t failure = nessflurry_code_of(answer);
    const uint16_t lamps = nessflurry_lamps_of(answer);
    printf("%s: fails %d (%s) from start %d on a line of %d lamp%s", name, failure, failure_words(failure),
           nessflurry_start_of(answer), lamps, plural(lamps));
    for (int i = 0; i < lamps; i++)
        printf("%s %d", i == 0 ? ":" : "", line[i]);
    printf(", end kind %d\n", nessflurry_end_of(answer));
}

/* What one file is told; the good answers of the two checks have codes that differ. */
static enum status print_answer(const char *name, uint64_t answer)
{
    const uint16_t lamps = nessflurry_lamps_of(answer);
    switch (nessflurry_code_of(answer)) {
    case NESSFLURRY_ACCEPTED:
        printf("%s: accepted %u (the plan is right on every line; pairs reached: %u)\n", name, nessflurry_pairs_of(answer),
               nessflurry_pairs_of(answer));
        return GOOD;
    case NESSFLURRY_NONE_UP_TO:
        printf("%s: none up to %d lamp%s (right on each of these lines; longer ones are not looked at)\n", name, lamps,
               plural(lamps));
        return GOOD;
    case NESSFLURRY_REFUSED: return print_refusal(name, answer);
    default: print_failure(name, answer); return NOT_GOOD;
    }
}

static bool is_failure(uint64_t answer)
{
    return nessflurry_code_of(answer) >= NESSFLURRY_NOT_LEGAL && nessflurry_code_of(answer) <= NESSFLURRY_GOAL_FALSE;
}

static bool print_failing_steps(const struct file *file, uint64_t answer)
{
    const struct line_run run = {nessflurry_start_of(answer), line, nessflurry_lamps_of(answer), nessflurry_end_of(answer),
                                 UINT32_MAX};
    return print_steps(file, &run);
}

/* The check of lines of every length, or of those up to a number of lamps. */
enum { EVERY_LENGTH = NESSFLURRY_MAX_LAMPS + 1 };
static uint64_t check(const struct file *file, uint32_t longest)
{
    if (longest == EVERY_LENGTH)
        return nessflurry_check(file->bytes, file->size, line, NESSFLURRY_LINE_SIZE, list, NESSFLURRY_LIST_SIZE, words,
                                NESSFLURRY_WORDS_SIZE);
    return nessflurry_check_up_to(file->bytes, file->size, (uint16_t)longest, line, NESSFLURRY_LINE_SIZE, list,
                                  NESSFLURRY_LIST_SIZE, words, NESSFLURRY_WORDS_SIZE);
}

static enum status check_file(const char *name, uint32_t longest, bool steps)
{
    struct file file;
    if (!read_job_file(&file, name))
        return NO_ANSWER;
    const uint64_t answer = check(&file, longest);
    const enum status status = print_answer(name, answer);
    return !steps || !is_failure(answer) || print_failing_steps(&file, answer) ? status : NO_ANSWER;
}

enum status check_files(const struct arguments *arguments)
{
    enum status status = GOOD;
    for (int i = 0; i < arguments->count; i++)
        status = worse(status, check_file(arguments->words[i], EVERY_LENGTH, arguments->steps));
    return status;
}

enum status check_files_up_to(const struct arguments *arguments)
{
    enum status status = GOOD;
    uint32_t longest;
    if (!take_number("the number of lamps", arguments->words[0], NESSFLURRY_MAX_LAMPS, &longest))
        return NO_ANSWER;
    for (int i = 1; i < arguments->count; i++)
        status = worse(status, check_file(arguments->words[i], longest, arguments->steps));
    return status;
}
