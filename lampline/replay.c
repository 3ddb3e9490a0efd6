/* The replay of a log that a crew brings back. */
#include "commands.h"
#include "files.h"
#include "nessflurry.h"

#include <stdio.h>

enum { ENTRY_SIZE = 2 }; /* an action and a result */

static enum status print_impossible(const struct file *log, uint16_t place)
{
    const uint8_t *const entry = log->bytes + ENTRY_SIZE * (size_t)place;
    printf("%s: impossible at entry %d, counted from 0 (action %d, result %d): "
           "no start and line give the log up to and with it\n",
           log->name, place, entry[0], entry[1]);
    return NOT_GOOD;
}

enum status replay_log(const struct arguments *arguments)
{
    struct file job, log;
    if (!read_job_file(&job, arguments->words[0]) || !read_log_file(&log, arguments->words[1]))
        return NO_ANSWER;
    const uint64_t answer = nessflurry_replay(job.bytes, job.size, log.bytes, log.size);
    switch (nessflurry_code_of(answer)) {
    case NESSFLURRY_REFUSED:
        return print_refusal(nessflurry_refusal_of(answer) >= NESSFLURRY_REFUSED_LOG_SIZE ? log.name : job.name, answer);
    case NESSFLURRY_IMPOSSIBLE: return print_impossible(&log, nessflurry_place_of(answer));
    default:
        printf("%s: possible (some start and line give its %zu entr%s)\n", log.name, log.size / ENTRY_SIZE,
               log.size == ENTRY_SIZE ? "y" : "ies");
        return GOOD;
    }
}
