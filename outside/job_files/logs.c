#include "logs.h"

/* ---- Entries at the end of a log ---- */

void add_entry(struct log *log, uint8_t action, uint8_t result)
{
    log->bytes[log->size++] = action;
    log->bytes[log->size++] = result;
}

void add_steps(struct log *log, struct execution *at, size_t most)
{
    for (; most > 0 && goes_on(at); most--) {
        add_entry(log, due_action(at), due_result(at));
        take_step(at);
    }
}

void add_any_entry(struct log *log, const struct job *job, struct random *random)
{
    uint8_t action = (uint8_t)below(random, job->actions), result = (uint8_t)below(random, job->results);
    add_entry(log, action, result);
}

void add_plan_entries(struct log *log, const struct job *job, struct random *random, size_t entries)
{
    uint8_t state = job->first;
    for (; entries > 0 && state < job->states; entries--) {
        uint8_t result = (uint8_t)below(random, job->results), target = job->target[state][result];
        add_entry(log, job->action[state], result);
        state = target != NONE ? target : state;
    }
    for (; entries > 0; entries--)
        add_any_entry(log, job, random);
}

/* ---- Slight changes ---- */

/* Its action or its result becomes another, if the job has another. */
static void change_byte(uint8_t *entry, const struct job *job, struct random *random)
{
    bool in_action = one_in(random, 3);
    uint8_t *byte = in_action ? &entry[0] : &entry[1], count = in_action ? job->actions : job->results;
    if (count > 1)
        *byte = (uint8_t)another_below(random, count, *byte);
}

static void leave_out(struct log *log, uint8_t *entry)
{
    memmove(entry, entry + 2, (size_t)(log->bytes + log->size - entry) - 2);
    log->size -= 2;
}

/* The entry comes twice; one that was at the end of the longest log is lost. */
static void put_twice(struct log *log, uint8_t *entry)
{
    log->size = log->size < NESSFLURRY_MAX_LOG_SIZE ? log->size + 2 : log->size;
    memmove(entry + 2, entry, (size_t)(log->bytes + log->size - entry) - 2);
}

static void put_in(struct log *log, uint8_t *entry, const struct job *job, struct random *random)
{
    put_twice(log, entry);
    change_byte(entry, job, random);
}

static void put_at_end(struct log *log, const struct job *job, struct random *random)
{
    if (log->size < NESSFLURRY_MAX_LOG_SIZE)
        add_any_entry(log, job, random);
}

static void exchange(struct log *log, uint8_t *entry)
{
    uint8_t *last = log->bytes + log->size - 2, one[2];
    memcpy(one, entry, 2);
    memcpy(entry, last, 2);
    memcpy(last, one, 2);
}

void change_log(struct log *log, const struct job *job, struct random *random)
{
    if (log->size == 0) {
        put_at_end(log, job, random);
        return;
    }
    uint8_t *entry = &log->bytes[2 * below(random, (uint32_t)entries_of(log))];
    switch (below(random, 10)) {
    case 0: leave_out(log, entry); break;
    case 1: put_twice(log, entry); break;
    case 2: exchange(log, entry); break;
    case 3: log->size = (size_t)(entry - log->bytes); break;
    case 4: put_in(log, entry, job, random); break;
    case 5: put_at_end(log, job, random); break;
    default: change_byte(entry, job, random); break;
    }
}
