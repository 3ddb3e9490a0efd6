/* The run of one line and the one-lamp walk. */
#include "commands.h"
#include "files.h"
#include "nessflurry.h"
#include "steps.h"

#include <stdio.h>

/* Where a run or a walk has come to its end. */
static enum status print_ending(const char *name, uint64_t answer)
{
    const uint8_t code = nessflurry_code_of(answer);
    const uint32_t steps = nessflurry_steps_of(answer);
    printf("%s: ", name);
    if (code == NESSFLURRY_GOAL)
        printf("goal after %u step%s\n", steps, plural(steps));
    else
        printf("fails %d (%s) after %u step%s\n", code, failure_words(code), steps, plural(steps));
    return code == NESSFLURRY_GOAL ? GOOD : NOT_GOOD;
}

/* One lamp more than a line may have, so that a longer one is handed over too, and refused. */
static uint8_t line[NESSFLURRY_MAX_LAMPS + 1];

static bool take_line(struct line_run *run, const struct arguments *arguments)
{
    enum { FIRST_KIND = 2 };
    *run = (struct line_run){.line = line, .end = arguments->end, .limit = arguments->limit};
    if (!take_byte("the start", arguments->words[1], &run->start))
        return false;
    for (int i = FIRST_KIND; i < arguments->count && run->lamps < sizeof line; i++)
        if (!take_byte("a lamp's kind", arguments->words[i], &line[run->lamps++]))
            return false;
    return true;
}

static enum status print_run(const char *name, uint64_t answer)
{
    if (nessflurry_code_of(answer) != NESSFLURRY_STOPPED)
        return print_ending(name, answer);
    printf("%s: stopped %u (the limit of steps; the run would go on)\n", name, nessflurry_steps_of(answer));
    return NOT_GOOD;
}

enum status run_line(const struct arguments *arguments)
{
    struct line_run run;
    struct file file;
    if (!take_line(&run, arguments) || !read_job_file(&file, arguments->words[0]))
        return NO_ANSWER;
    const uint64_t answer = answer_of(&file, &run);
    if (nessflurry_code_of(answer) == NESSFLURRY_REFUSED)
        return print_refusal(file.name, answer);
    const enum status status = print_run(file.name, answer);
    return !arguments->steps || print_steps(&file, &run) ? status : NO_ANSWER;
}

enum status walk_lamp(const struct arguments *arguments)
{
    struct file file;
    uint8_t state, world, column;
    if (!take_byte("the program state", arguments->words[1], &state) ||
        !take_byte("the world state", arguments->words[2], &world) || !take_byte("the column", arguments->words[3], &column) ||
        !read_job_file(&file, arguments->words[0]))
        return NO_ANSWER;
    const uint64_t answer = nessflurry_walk(file.bytes, file.size, state, world, column);
    if (nessflurry_code_of(answer) == NESSFLURRY_REFUSED)
        return print_walk_refusal(file.name, answer);
    if (nessflurry_code_of(answer) != NESSFLURRY_ARRIVED)
        return print_ending(file.name, answer);
    printf("%s: moves on after %u step%s, with state %d and world %d\n", file.name, nessflurry_steps_of(answer),
           plural(nessflurry_steps_of(answer)), nessflurry_state_of(answer), nessflurry_world_of(answer));
    return GOOD;
}
