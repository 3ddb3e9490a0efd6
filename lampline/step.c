/*
 * The cabinet's stepper, along results that are typed or piped in. What it prints reads the same either way: on a terminal a
 * result stands where the user typed it, and otherwise it is printed there.
 */
#define _POSIX_C_SOURCE 200809L
#include "commands.h"
#include "files.h"
#include "nessflurry.h"

#include <ctype.h>
#include <stdio.h>
#include <string.h>
#include <unistd.h>

/* More than a byte needs. A longer word is no result: it ends in dots where it is cut, and so is no number. */
enum { WORD_ROOM = 16 };
static const char cut[] = "...";

struct word {
    char text[WORD_ROOM]; /* empty at the end of the input; a zero byte is a '?' */
    bool typed_here;      /* by the user, at the end of what is printed, where it can be seen now */
};

static struct word next_word(void)
{
    static int letter = '\n'; /* what ended the word before this one */
    struct word word = {0};
    bool on_new_line = false;
    size_t length = 0;
    fflush(stdout);
    do {
        on_new_line = on_new_line || letter == '\n';
        letter = getchar();
    } while (letter != EOF && isspace(letter));
    word.typed_here = on_new_line && isatty(STDIN_FILENO) && isatty(STDOUT_FILENO);
    for (; letter != EOF && !isspace(letter); letter = getchar(), length++)
        if (length + 1 < WORD_ROOM)
            word.text[length] = letter == '\0' ? '?' : (char)letter;
    if (length >= WORD_ROOM)
        memcpy(word.text + WORD_ROOM - sizeof cut, cut, sizeof cut);
    return word;
}

/* Where the cabinet is, and what it does next; whether it is at the plan's end. */
static bool print_cabinet(const struct file *file, uint64_t cabinet)
{
    const uint8_t state = nessflurry_state_of(cabinet);
    const uint16_t left = nessflurry_lamps_of(cabinet);
    const uint64_t next = nessflurry_action(file->bytes, file->size, state, left);
    printf("state %d, %d lamp%s left: ", state, left, plural(left));
    if (nessflurry_code_of(next) == NESSFLURRY_ENDED)
        printf("ended");
    else
        printf("action %d, result ", nessflurry_action_of(next));
    return nessflurry_code_of(next) == NESSFLURRY_ENDED;
}

/* Reports what a word says. A refused report, or a word that is no result, leaves the cabinet where it is. */
static enum status report(const struct file *file, uint64_t *cabinet, const char *word)
{
    uint8_t result;
    if (!take_byte("a result", word, &result))
        return NO_ANSWER;
    *cabinet = nessflurry_report(file->bytes, file->size, nessflurry_state_of(*cabinet), nessflurry_lamps_of(*cabinet), result);
    return nessflurry_code_of(*cabinet) == NESSFLURRY_REFUSED ? print_refusal(file->name, *cabinet) : GOOD;
}

/* No result follows: it is well if the plan is at its end, and all of the input was read. */
static enum status finish(bool ended, enum status status)
{
    puts(ended ? "" : "none: the plan has not ended");
    if (ferror(stdin)) {
        complain("standard input cannot be read");
        return NO_ANSWER;
    }
    return ended ? status : worse(status, NOT_GOOD);
}

/* Up to the end of the results, or on a terminal to the plan's end. A result that is piped in after that is reported too. */
static enum status lead(const struct file *file, uint64_t cabinet)
{
    enum status status = GOOD;
    for (;;) {
        const bool ended = print_cabinet(file, cabinet);
        const struct word word = ended && isatty(STDIN_FILENO) ? (struct word){0} : next_word();
        if (word.text[0] == '\0')
            return finish(ended, status);
        if (!word.typed_here)
            printf("%s%s\n", ended ? ", result " : "", word.text);
        status = worse(status, report(file, &cabinet, word.text));
    }
}

enum status step_cabinet(const struct arguments *arguments)
{
    struct file file;
    uint32_t lamps;
    if (strcmp(arguments->words[0], "-") == 0) {
        complain("step takes the results from standard input, so the job cannot come from there");
        return NO_ANSWER;
    }
    if (!take_number("the number of lamps", arguments->words[1], NESSFLURRY_MAX_LAMPS, &lamps) ||
        !read_job_file(&file, arguments->words[0]))
        return NO_ANSWER;
    const uint64_t cabinet = nessflurry_begin(file.bytes, file.size, (uint16_t)lamps);
    return nessflurry_code_of(cabinet) == NESSFLURRY_REFUSED ? print_refusal(file.name, cabinet) : lead(&file, cabinet);
}
