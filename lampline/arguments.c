#include "arguments.h"
#include "messages.h"

#include <string.h>

/* Digits alone: no sign, no blank, nothing after them. */
static bool is_number(const char *word, uint32_t most, uint32_t *number)
{
    uint64_t value = 0;
    if (*word == '\0')
        return false;
    for (; *word != '\0'; word++) {
        if (*word < '0' || *word > '9')
            return false;
        value = 10 * value + (uint64_t)(*word - '0');
        if (value > most)
            return false;
    }
    *number = (uint32_t)value;
    return true;
}

bool take_number(const char *what, const char *word, uint32_t most, uint32_t *number)
{
    if (is_number(word, most, number))
        return true;
    complain("%s must be a number from 0 to %lu, not '%s'", what, (unsigned long)most, word);
    return false;
}

bool take_byte(const char *what, const char *word, uint8_t *byte)
{
    uint32_t number;
    if (!take_number(what, word, UINT8_MAX, &number))
        return false;
    *byte = (uint8_t)number;
    return true;
}

/* What stands after the option's name and a '=' in the same word, or else the next word; NULL if there is no such thing. */
static const char *value_of(const char *name, char **words, int count, int *at)
{
    const size_t length = strlen(name);
    if (strncmp(words[*at], name, length) != 0)
        return NULL;
    if (words[*at][length] == '=')
        return words[*at] + length + 1;
    return words[*at][length] == '\0' && *at + 1 < count ? words[++*at] : NULL;
}

/* The option at this place, and its value, which may be the next word. */
static bool take_option(struct arguments *arguments, char **words, int count, int *at, unsigned options)
{
    const char *const option = words[*at], *value;
    if (strcmp(option, "--help") == 0)
        return arguments->help = true;
    if (options & TAKES_STEPS && strcmp(option, "--steps") == 0)
        return arguments->steps = true;
    if (options & TAKES_LIMIT && (value = value_of("--limit", words, count, at)) != NULL)
        return take_number("the limit", value, UINT32_MAX, &arguments->limit);
    if (options & TAKES_END && (value = value_of("--end", words, count, at)) != NULL)
        return take_byte("the end kind", value, &arguments->end);
    if ((options & TAKES_LIMIT && strcmp(option, "--limit") == 0) || (options & TAKES_END && strcmp(option, "--end") == 0))
        complain("'%s' needs a number after it", option);
    else
        complain("'%s' is no option here; lampline --help tells more", option);
    return false;
}

/* A '-' alone is standard input, and after '--' every word is one. */
bool take_arguments(struct arguments *arguments, int count, char **words, unsigned options)
{
    bool all_words = false;
    *arguments = (struct arguments){.words = words, .limit = UINT32_MAX};
    for (int at = 0; at < count; at++)
        if (!all_words && strcmp(words[at], "--") == 0)
            all_words = true;
        else if (!all_words && words[at][0] == '-' && words[at][1] != '\0') {
            if (!take_option(arguments, words, count, &at, options))
                return false;
        } else
            words[arguments->count++] = words[at];
    return true;
}
