#include "files.h"
#include "messages.h"
#include "nessflurry.h"

#include <errno.h>
#include <stdio.h>
#include <string.h>

/* The library takes rules of any size. So that the whole of a file can be held, this program takes up to 16 MB of them. */
enum { MOST_RULES = 1 << 24 };

/* Room for one byte more than there may be, which tells that a file is too long. */
static uint8_t job_room[NESSFLURRY_MAX_FILE_SIZE + 1], log_room[NESSFLURRY_MAX_LOG_SIZE + 1], rules_room[MOST_RULES + 1];

/* NULL, with the reason said, if the file cannot be opened. */
static FILE *open_file(const char *name)
{
    static bool input_taken;
    if (strcmp(name, "-") != 0) {
        FILE *const from = fopen(name, "rb");
        if (from == NULL)
            complain("%s: %s", name, strerror(errno));
        return from;
    }
    if (input_taken) {
        complain("-: standard input can be read only once");
        return NULL;
    }
    input_taken = true;
    return stdin;
}

static bool read_file(struct file *file, const char *name, const char *sort, uint8_t *room, size_t most)
{
    FILE *const from = open_file(name);
    if (from == NULL)
        return false;
    *file = (struct file){name, room, fread(room, 1, most + 1, from)};
    const int error = ferror(from) ? errno : 0;
    if (from != stdin)
        fclose(from);
    if (error != 0)
        complain("%s: %s", name, strerror(error));
    else if (file->size > most)
        complain("%s: too long for a %s, which has at most %zu bytes", name, sort, most);
    return error == 0 && file->size <= most;
}

bool read_job_file(struct file *file, const char *name)
{
    return read_file(file, name, "job file", job_room, NESSFLURRY_MAX_FILE_SIZE);
}

bool read_log_file(struct file *file, const char *name)
{
    return read_file(file, name, "log", log_room, NESSFLURRY_MAX_LOG_SIZE);
}

bool read_rules_file(struct file *file, const char *name)
{
    return read_file(file, name, "rules file of this program", rules_room, MOST_RULES);
}
