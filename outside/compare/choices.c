#include "choices.h"

uint8_t about(struct random *random, uint32_t count)
{
    switch (below(random, 12)) {
    case 0: return (uint8_t)count;
    case 1: return (uint8_t)random_word(random);
    default: return (uint8_t)below(random, count);
    }
}

uint8_t any_start(const struct job *job, struct random *random)
{
    return one_in(random, 8) ? about(random, job->worlds) : marked_start(job, random);
}

static size_t choose_lamps(struct random *random)
{
    switch (below(random, 100)) {
    case 0: return below(random, NESSFLURRY_MAX_LAMPS + 1);
    case 1: return NESSFLURRY_MAX_LAMPS + below(random, 2);
    default: return below(random, 21);
    }
}

/* The count itself, or any number above it. */
static uint8_t not_below(struct random *random, uint8_t count)
{
    return one_in(random, 2) ? count : (uint8_t)(count + below(random, 256u - count));
}

static uint8_t no_kind(const struct job *job, struct random *random)
{
    return one_in(random, 3) ? 0 : not_below(random, job->kinds + 1);
}

size_t choose_line(const struct job *job, struct random *random, uint8_t line[NESSFLURRY_MAX_LAMPS + 1])
{
    size_t lamps = choose_lamps(random);
    choose_kinds(job, random, line, lamps);
    if (lamps > 0 && one_in(random, 12)) {
        uint8_t *lamp = &line[below(random, (uint32_t)lamps)];
        *lamp = no_kind(job, random);
    }
    return lamps;
}

uint8_t any_end(const struct job *job, struct random *random)
{
    return one_in(random, 12) ? not_below(random, ends_of(job)) : choose_end(job, random);
}

static size_t choose_entries(struct random *random)
{
    switch (below(random, 100)) {
    case 0: return below(random, MOST_ENTRIES + 1);
    case 1: return MOST_ENTRIES + below(random, 2);
    default: return below(random, 13);
    }
}

void spoil_log(const struct job *job, struct random *random, struct log *log)
{
    uint32_t at = below(random, (uint32_t)log->size);
    log->bytes[at] = not_below(random, at % 2 == 0 ? job->actions : job->results);
}

void choose_log(const struct job *job, struct random *random, struct log *log)
{
    size_t entries = choose_entries(random);
    log->size = 0;
    if (one_in(random, 2))
        add_plan_entries(log, job, random, entries);
    while (entries_of(log) < entries)
        add_any_entry(log, job, random);
    if (log->size > 0 && one_in(random, 12))
        spoil_log(job, random, log);
    if (log->size > 0 && one_in(random, 12))
        log->size--;
}

struct sizes enough_or_more(const struct job *job, struct random *random)
{
    struct sizes sizes = enough(job);
    uint32_t beyond = one_in(random, 2) ? 1 : ROOM_BEYOND;
    sizes.line += below(random, beyond);
    sizes.list += below(random, beyond);
    sizes.words += below(random, beyond);
    return sizes;
}

size_t too_few(size_t needed, struct random *random)
{
    switch (below(random, 3)) {
    case 0: return needed - 1;
    case 1: return 0;
    default: return below(random, (uint32_t)needed);
    }
}
