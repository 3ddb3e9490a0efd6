/*
 * The commands, each over one operation of the library. Each takes the words after its name, as many as lampline.c lists for it,
 * and answers the exit status.
 */
#ifndef LAMPLINE_COMMANDS_H
#define LAMPLINE_COMMANDS_H

#include "arguments.h"
#include "messages.h"

typedef enum status command(const struct arguments *arguments);

command check_files;       /* FILE.. */
command check_files_up_to; /* LAMPS FILE.. */
command run_line;          /* FILE START KIND.. */
command walk_lamp;         /* FILE STATE WORLD COLUMN */
command read_files;        /* FILE.. */
command step_cabinet;      /* FILE LAMPS */
command replay_log;        /* FILE LOG */
command fill_cells;        /* RULES A W C R E */

#endif
