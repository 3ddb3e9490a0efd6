#include "messages.h"
#include "nessflurry.h"

#include <stdarg.h>
#include <stdbool.h>
#include <stdio.h>

void complain(const char *format, ...)
{
    va_list values;
    fflush(stdout);
    fputs("lampline: ", stderr);
    va_start(values, format);
    vfprintf(stderr, format, values);
    va_end(values);
    fputc('\n', stderr);
}

const char *failure_words(uint8_t failure)
{
    switch (failure) {
    case NESSFLURRY_NOT_LEGAL: return "action not legal";
    case NESSFLURRY_NO_BRANCH: return "no branch for the result";
    case NESSFLURRY_CIRCLES: return "circles";
    default: return "goal false at the plan's end";
    }
}

const char *refusal_words(uint8_t refusal)
{
    static const char *const words[] = {
        [NESSFLURRY_REFUSED_FILE_SIZE] = "fewer than 28 or more than 65,535 bytes",
        [NESSFLURRY_REFUSED_NUMBERS] = "one of the first eight bytes is out of its range",
        [NESSFLURRY_REFUSED_PART_PLACE] = "a part is out of place",
        [NESSFLURRY_REFUSED_PART_LENGTH] = "a part has a wrong length",
        [NESSFLURRY_REFUSED_MARKS] = "a mark is neither 0 nor 1",
        [NESSFLURRY_REFUSED_CELLS] = "a cell has a world state or a result that the job does not have, or is not legal with "
                                     "a next world state other than 0",
        [NESSFLURRY_REFUSED_END_CELLS] = "an action that moves on is legal at a line's end",
        [NESSFLURRY_REFUSED_STARTS] = "a byte of the starts is neither 0 nor 1, or no start is marked",
        [NESSFLURRY_REFUSED_GOAL] = "a byte of the goal is neither 0 nor 1",
        [NESSFLURRY_REFUSED_ACTIONS] = "the plan has an action that the job does not have",
        [NESSFLURRY_REFUSED_TARGETS] = "the plan has a target that is no program state",
        [NESSFLURRY_REFUSED_LINE_BUFFER] = "the line buffer is too small",
        [NESSFLURRY_REFUSED_WORK_BUFFERS] = "the working list or the words are too small",
        [NESSFLURRY_REFUSED_WORLD] = "not a start that the job marks",
        [NESSFLURRY_REFUSED_LINE] = "a lamp kind or an end kind that the job does not have, or over 65,535 lamps",
        [NESSFLURRY_REFUSED_STATE] = "no such program state",
        [NESSFLURRY_REFUSED_AFTER_END] = "the plan is at its end already",
        [NESSFLURRY_REFUSED_RESULT] = "there is no such result, or the plan has no branch for it here",
        [NESSFLURRY_REFUSED_NO_LAMP] = "the action moves on, but no lamp is left",
        [NESSFLURRY_REFUSED_LOG_SIZE] = "an odd number of bytes, or more than 65,534",
        [NESSFLURRY_REFUSED_LOG_ENTRIES] = "an action or a result that the job does not have",
        [NESSFLURRY_REFUSED_RULES] = "a number out of its range, or rules that are wrong or cut short",
        [NESSFLURRY_REFUSED_PART_SIZE] = "a cells part of a wrong size",
    };
    const bool known = refusal < sizeof words / sizeof *words && words[refusal] != NULL;
    return known ? words[refusal] : "a reason that this program does not know";
}

static const char *walk_refusal_words(uint8_t refusal)
{
    switch (refusal) {
    case NESSFLURRY_REFUSED_WORLD: return "no such world state";
    case NESSFLURRY_REFUSED_LINE: return "no such column";
    default: return refusal_words(refusal);
    }
}

static enum status print_refused(const char *name, uint8_t refusal, const char *words)
{
    printf("%s: refused %d (%s)\n", name, refusal, words);
    return NOT_GOOD;
}

enum status print_refusal(const char *name, uint64_t answer)
{
    const uint8_t refusal = nessflurry_refusal_of(answer);
    return print_refused(name, refusal, refusal_words(refusal));
}

enum status print_walk_refusal(const char *name, uint64_t answer)
{
    const uint8_t refusal = nessflurry_refusal_of(answer);
    return print_refused(name, refusal, walk_refusal_words(refusal));
}
