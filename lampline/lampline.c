/*
 * The operations of Nessflurry on the command line. This program is glue: it reads files and words, calls the library, and puts
 * the answers into words. What is proved is the library under it.
 */
#include "commands.h"
#include "nessflurry.h"

#include <limits.h>
#include <stdio.h>
#include <string.h>

static const struct listed {
    const char *name, *words;
    int least, most; /* how many words it takes */
    unsigned options;
    command *call;
    const char *says;
} commands[] = {
    {"check", "[--steps] FILE..", 1, INT_MAX, TAKES_STEPS, check_files,
     "is the plan right on every line? One line for each file; with --steps, where it fails, each step to the failure"},
    {"check-up-to", "[--steps] LAMPS FILE..", 2, INT_MAX, TAKES_STEPS, check_files_up_to,
     "the short check: the same for the lines of up to LAMPS lamps alone"},
    {"run", "FILE START [--limit STEPS] [--end END] [--steps] [KIND..]", 2, INT_MAX, TAKES_STEPS | TAKES_LIMIT | TAKES_END,
     run_line, "the plan on the line of lamps of these kinds, from this start; the line's end is of kind 0 if no other is named"},
    {"walk", "FILE STATE WORLD COLUMN", 4, 4, 0, walk_lamp,
     "the plan at one lamp or one end of a line, until it moves on or ends"},
    {"read", "FILE..", 1, INT_MAX, 0, read_files, "the numbers of a job, where its parts stand, and its starts"},
    {"step", "FILE LAMPS", 2, 2, 0, step_cabinet,
     "takes a cabinet along a line of LAMPS lamps, by results that are typed or piped in"},
    {"replay", "FILE LOG", 2, 2, 0, replay_log, "can a cabinet with this plan have written this log?"},
    {"cells", "RULES A W C R E", 6, 6, 0, fill_cells, "the cells of a job from a rules file, as bytes on standard output"},
};
enum { COMMANDS = sizeof commands / sizeof *commands };

static enum status print_help(void)
{
    puts("lampline: the operations of Nessflurry, the proved checker for plans of street lamp cabinets\n");
    for (int i = 0; i < COMMANDS; i++)
        printf("    lampline %s %s\n        %s\n", commands[i].name, commands[i].words, commands[i].says);
    puts("    lampline --help\n    lampline --version\n\n"
         "FILE is a job file; '-' for a file is standard input, but not for step. After '--' no word is an option. Numbers\n"
         "are as in the job file, from 0 on; lamp kinds are from 1 on. The exit status is 0 if all is well (accepted, none\n"
         "up to LAMPS, goal, moves on, read, ended, possible, cells written), 1 if it is not (fails, refused, stopped,\n"
         "impossible, not ended), and 2 if there is no answer (wrong words, a file that cannot be read, output that cannot\n"
         "be written). lampline(1) and docs/FORMAT.md tell more. The library's answers are proved; this program only\n"
         "prints them.");
    return GOOD;
}

static enum status print_version(void)
{
    printf("lampline %d (library %u)\n", NESSFLURRY_VERSION, nessflurry_version());
    return GOOD;
}

static const struct listed *find(const char *name)
{
    for (int i = 0; i < COMMANDS; i++)
        if (strcmp(name, commands[i].name) == 0)
            return &commands[i];
    return NULL;
}

static enum status call(const struct listed *listed, int count, char **words)
{
    struct arguments arguments;
    if (!take_arguments(&arguments, count, words, listed->options))
        return NO_ANSWER;
    if (arguments.help)
        return print_help();
    if (arguments.count < listed->least || arguments.count > listed->most) {
        complain("usage: lampline %s %s", listed->name, listed->words);
        return NO_ANSWER;
    }
    return listed->call(&arguments);
}

static enum status obey(int argc, char **argv)
{
    const char *const name = argc > 1 ? argv[1] : "";
    const struct listed *const listed = find(name);
    if (nessflurry_version() != NESSFLURRY_VERSION) {
        complain("the library is of version %u, and this program is for version %d", nessflurry_version(), NESSFLURRY_VERSION);
        return NO_ANSWER;
    }
    if (listed != NULL)
        return call(listed, argc - 2, argv + 2);
    if (strcmp(name, "--version") == 0)
        return print_version();
    if (strcmp(name, "--help") == 0)
        return print_help();
    if (argc > 1)
        complain("'%s' is no command; lampline --help lists the commands", name);
    else
        complain("no command; lampline --help lists the commands");
    return NO_ANSWER;
}

/* What could not be written was not answered. */
int main(int argc, char **argv)
{
    const enum status status = obey(argc, argv);
    if (fflush(stdout) == 0 && !ferror(stdout))
        return status;
    complain("standard output cannot be written");
    return NO_ANSWER;
}
