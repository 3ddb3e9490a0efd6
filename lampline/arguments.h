/*
 * What is typed after a command: its words, and the options among them.
 */
#ifndef LAMPLINE_ARGUMENTS_H
#define LAMPLINE_ARGUMENTS_H

#include <stdbool.h>
#include <stdint.h>

/* Options, as bits: each command says which it takes. */
enum { TAKES_STEPS = 1, TAKES_LIMIT = 2, TAKES_END = 4 };

struct arguments {
    int count; /* of the words that are no options */
    char **words;
    bool steps;     /* --steps */
    uint32_t limit; /* --limit, or the largest number */
    uint8_t end;    /* --end, or 0 */
    bool help;      /* --help, whatever the words are */
};

/* Takes the options out of the words. Where one is wrong it says so on standard error, and answers false. */
bool take_arguments(struct arguments *arguments, int count, char **words, unsigned options);

/* The number that a word is, if it is one of 0 to `most`; otherwise says so on standard error, and answers false. */
bool take_number(const char *what, const char *word, uint32_t most, uint32_t *number);
bool take_byte(const char *what, const char *word, uint8_t *byte);

#endif
