/* The cells part of a job file, from rules: bytes on standard output, so everything else goes to standard error. */
#define _POSIX_C_SOURCE 200809L
#include "commands.h"
#include "files.h"
#include "nessflurry.h"

#include <stdio.h>
#include <unistd.h>

enum { ACTIONS, WORLDS, KINDS, RESULTS, END_KINDS, NUMBERS };

static uint8_t part[NESSFLURRY_MAX_CELLS_SIZE];

static bool take_numbers(uint8_t numbers[NUMBERS], char **words)
{
    static const char *const names[NUMBERS] = {"A", "W", "C", "R", "E"};
    for (int i = 0; i < NUMBERS; i++)
        if (!take_byte(names[i], words[i], &numbers[i]))
            return false;
    return true;
}

/* As many bytes as the cells have; where the numbers are out of range, and the call is refused for that, as many as there are. */
static size_t part_size(const uint8_t numbers[NUMBERS])
{
    const size_t size = (size_t)2 * numbers[ACTIONS] * numbers[WORLDS] * ((size_t)numbers[END_KINDS] + numbers[KINDS]);
    return size <= sizeof part ? size : sizeof part;
}

enum status fill_cells(const struct arguments *arguments)
{
    struct file rules;
    uint8_t numbers[NUMBERS];
    if (!take_numbers(numbers, arguments->words + 1) || !read_rules_file(&rules, arguments->words[0]))
        return NO_ANSWER;
    if (isatty(STDOUT_FILENO)) {
        complain("cells are bytes and not for a terminal: send them to a file, as in lampline cells ... > FILE");
        return NO_ANSWER;
    }
    const size_t size = part_size(numbers);
    const uint64_t answer = nessflurry_fill_cells(rules.bytes, rules.size, numbers[ACTIONS], numbers[WORLDS], numbers[KINDS],
                                                  numbers[RESULTS], numbers[END_KINDS], part, size);
    if (nessflurry_code_of(answer) == NESSFLURRY_REFUSED) {
        complain("%s: refused %d (%s)", rules.name, nessflurry_refusal_of(answer), refusal_words(nessflurry_refusal_of(answer)));
        return NOT_GOOD;
    }
    fwrite(part, 1, size, stdout);
    return GOOD;
}
