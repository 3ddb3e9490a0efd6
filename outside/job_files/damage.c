/*
 * Defects by refusal number. Each is put into a file whose job is known, and makes its own number due and none below it.
 */
#include "damage.h"

enum { DEFECTS = 11 };

enum { KINDS_AT = 2, LAST_END_AT = 6 }; /* of C and E - 1 in a file */

/* A byte above `most`, which is below 255: the next one often. */
static uint8_t above(struct random *random, uint8_t most)
{
    return one_in(random, 3) ? (uint8_t)(most + 1) : (uint8_t)(most + 1 + below(random, 255u - most));
}

static uint8_t *byte_of(struct file *file, enum part part, size_t at) { return &file->bytes[part_offset(file, part) + at]; }

void resize(struct file *file, size_t size, struct random *random)
{
    if (size > file->size)
        random_bytes(random, file->bytes + file->size, size - file->size);
    file->size = size;
}

static bool wrong_size(struct file *file, const struct job *job, struct random *random)
{
    (void)job;
    resize(file, one_in(random, 3) ? NESSFLURRY_MAX_FILE_SIZE + 1 : below(random, 28), random);
    return true;
}

static bool wrong_byte(struct file *file, const struct job *job, struct random *random)
{
    /* C and E - 1 by what the file says of the other, since another defect may have changed that. */
    const uint8_t most_kinds = MOST_KINDS - file->bytes[LAST_END_AT], most_last_end = MOST_KINDS - file->bytes[KINDS_AT];
    const uint8_t most[8] = {MOST_ACTIONS, MOST_WORLDS, most_kinds,    MOST_RESULTS,
                             MOST_STATES,  job->states, most_last_end, 0};
    uint32_t at = below(random, 8);
    bool too_low = at < 4 && one_in(random, 3); /* S, the first state and the last two bytes may be 0 */
    file->bytes[at] = too_low ? 0 : above(random, most[at]);
    return true;
}

/* Each column an end kind, so that none is left for lamps: as many columns as there are, or as many as there can be. */
static bool no_kinds(struct file *file, const struct job *job, struct random *random)
{
    uint8_t columns = one_in(random, 2) ? columns_of(job) : MOST_COLUMNS;
    file->bytes[LAST_END_AT] = columns - 1;
    file->bytes[KINDS_AT] = 0;
    return true;
}

static bool wrong_number(struct file *file, const struct job *job, struct random *random)
{
    return one_in(random, 8) ? no_kinds(file, job, random) : wrong_byte(file, job, random);
}

static bool wrong_offset(struct file *file, enum part part, struct random *random)
{
    uint32_t length = part_length(file, part);
    uint32_t before = part == MARKS ? 28 : part_end(file, part - 1);
    const uint32_t offsets[] = {before - 1, (uint32_t)file->size + 1 - length, UINT16_MAX, 0, 27, below(random, 28)};
    uint32_t offset = offsets[below(random, 6)];
    bool misplaced = offset < before || offset + length > file->size;
    if (misplaced && offset <= UINT16_MAX)
        set_pair(file, part, (uint16_t)offset, (uint16_t)length);
    return misplaced && offset <= UINT16_MAX;
}

static bool wrong_end(struct file *file, enum part part, struct random *random)
{
    uint32_t offset = part_offset(file, part);
    uint32_t after = part == PLAN ? (uint32_t)file->size : part_offset(file, part + 1);
    const uint32_t lengths[] = {after + 1 - offset, (uint32_t)file->size + 1 - offset, UINT16_MAX};
    set_pair(file, part, (uint16_t)offset, (uint16_t)lengths[below(random, 3)]);
    return true;
}

/* No part but the last can be empty in a job, so two neighbours never have the same offset. */
static bool wrong_order(struct file *file, enum part part)
{
    enum part one = part == PLAN ? GOAL : part, other = one + 1;
    uint16_t offset = part_offset(file, one), length = part_length(file, one);
    set_pair(file, one, part_offset(file, other), part_length(file, other));
    set_pair(file, other, offset, length);
    return true;
}

static bool wrong_place(struct file *file, const struct job *job, struct random *random)
{
    enum part part = below(random, PARTS);
    (void)job;
    switch (below(random, 4)) {
    case 0: return wrong_order(file, part);
    case 1: return wrong_end(file, part, random);
    default: return wrong_offset(file, part, random);
    }
}

/* Another E or C in range, so that cells and goal have not the length that they should have. */
static bool other_columns(struct file *file, const struct job *job, struct random *random)
{
    bool of_ends = one_in(random, 2);
    uint32_t choices = of_ends ? MOST_COLUMNS - job->kinds : MOST_COLUMNS - ends_of(job);
    if (choices == 1)
        return false;
    if (of_ends)
        file->bytes[LAST_END_AT] = (uint8_t)another_below(random, choices, job->last_end);
    else
        file->bytes[KINDS_AT] = (uint8_t)(1 + another_below(random, choices, job->kinds - 1u));
    return true;
}

/* Another length with which the part still ends before the next one begins. */
static bool other_length(struct file *file, struct random *random)
{
    enum part part = below(random, PARTS);
    uint32_t offset = part_offset(file, part), length = part_length(file, part);
    uint32_t room = (part == PLAN ? (uint32_t)file->size : part_offset(file, part + 1)) - offset;
    const uint32_t lengths[] = {length + 1, length - 1, 0, room, below(random, room + 1)};
    uint32_t other = lengths[below(random, 5)];
    if (other == length || other > room)
        return false;
    set_pair(file, part, (uint16_t)offset, (uint16_t)other);
    return true;
}

static bool wrong_length(struct file *file, const struct job *job, struct random *random)
{
    return one_in(random, 3) ? other_columns(file, job, random) : other_length(file, random);
}

static bool wrong_mark(struct file *file, const struct job *job, struct random *random)
{
    uint8_t *mark = byte_of(file, MARKS, below(random, job->actions));
    *mark = above(random, 1);
    return true;
}

static bool wrong_cell(struct file *file, const struct job *job, struct random *random)
{
    uint8_t *cell = byte_of(file, CELLS, 2 * below(random, (uint32_t)job->actions * job->worlds * columns_of(job)));
    switch (below(random, 3)) {
    case 0:
        cell[0] = above(random, job->worlds - 1);
        break;
    case 1:
        cell[0] = (uint8_t)below(random, job->worlds);
        cell[1] = one_in(random, 3) ? NONE - 1 : (uint8_t)(job->results + below(random, NONE - job->results));
        break;
    default:
        cell[0] = (uint8_t)(1 + below(random, 255));
        cell[1] = NONE;
        break;
    }
    return true;
}

static bool legal_at_end(struct file *file, const struct job *job, struct random *random)
{
    uint32_t action = below(random, job->actions), world = below(random, job->worlds), end = below(random, ends_of(job));
    uint8_t *cell = byte_of(file, CELLS, 2 * ((action * job->worlds + world) * columns_of(job) + end));
    if (!job->marks[action])
        return false;
    cell[0] = (uint8_t)below(random, job->worlds);
    cell[1] = (uint8_t)below(random, job->results);
    return true;
}

static bool wrong_start(struct file *file, const struct job *job, struct random *random)
{
    uint8_t *start = byte_of(file, STARTS, below(random, job->worlds));
    if (one_in(random, 3))
        memset(byte_of(file, STARTS, 0), 0, job->worlds);
    else
        *start = above(random, 1);
    return true;
}

static bool wrong_goal(struct file *file, const struct job *job, struct random *random)
{
    uint8_t *goal = byte_of(file, GOAL, below(random, (uint32_t)job->worlds * columns_of(job)));
    *goal = above(random, 1);
    return true;
}

static bool wrong_action(struct file *file, const struct job *job, struct random *random)
{
    if (job->states == 0)
        return false;
    uint8_t *action = byte_of(file, PLAN, below(random, job->states) * (1u + job->results));
    *action = above(random, job->actions - 1);
    return true;
}

static bool wrong_target(struct file *file, const struct job *job, struct random *random)
{
    if (job->states == 0)
        return false;
    size_t row = below(random, job->states) * (1u + job->results);
    uint8_t target = one_in(random, 3) ? NONE - 1 : (uint8_t)(job->states + 1 + below(random, NONE - job->states - 1u));
    *byte_of(file, PLAN, row + 1 + below(random, job->results)) = target;
    return true;
}

static bool (*const defects[DEFECTS + 1])(struct file *, const struct job *, struct random *) = {
    NULL,       wrong_size,   wrong_number, wrong_place, wrong_length, wrong_mark,
    wrong_cell, legal_at_end, wrong_start,  wrong_goal,  wrong_action, wrong_target};

unsigned damage(struct file *file, const struct job *job, struct random *random)
{
    unsigned chosen = 0, lowest = 0;
    for (uint32_t more = 1 + below(random, 3); more > 0; more--)
        chosen |= 1u << (1 + below(random, DEFECTS));
    /* From the highest down, because the defects of lower numbers spoil what the others are found by. */
    for (unsigned number = DEFECTS; number >= 1; number--)
        if (chosen >> number & 1 && defects[number](file, job, random))
            lowest = number;
    return lowest;
}

void scramble(struct file *file, struct random *random)
{
    for (uint32_t more = 1 + below(random, 4); more > 0; more--) {
        size_t among = one_in(random, 2) ? 28 : file->size;
        uint8_t *byte = &file->bytes[below(random, (uint32_t)among)];
        *byte = (uint8_t)random_word(random);
    }
}

void shift_columns(struct file *file, const struct job *job, struct random *random)
{
    uint8_t ends = (uint8_t)(1 + below(random, columns_of(job) - 1u));
    file->bytes[LAST_END_AT] = ends - 1;
    file->bytes[KINDS_AT] = columns_of(job) - ends;
}
