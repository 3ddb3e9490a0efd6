/*
 * An input of the fuzz target: 64 bytes that say what is handed over, and after them a job file or a rules file as it stands. All
 * bytes are an input. So a number is made from its byte by what the job has: mostly it is such as the job has, and sometimes not.
 */
#ifndef OUTSIDE_INPUT_H
#define OUTSIDE_INPUT_H

#include "nessflurry.h"

#include <assert.h>
#include <stdbool.h>

/*
 * What is made of the bytes after the arguments: the file that they are; one that is not refused; or, with changes that they say,
 * a job of job_files/families.h (repair.h).
 */
enum route { JOB_AS_IT_STANDS, JOB_REPAIRED, JOB_OF_A_FAMILY, RULES_AS_THEY_STAND, RULES_REPAIRED, ROUTES };

struct arguments {
    uint8_t route;
    uint8_t seed[2]; /* of a family's job, of the bytes that a repaired job lacks, and of what has no meaning */

    /* The rules file alone. */
    uint8_t actions, worlds, kinds, results, end_kinds, part_size;

    uint8_t gaps; /* of a repaired job file */

    /* Walk, run and cabinet. */
    uint8_t start, world, state, column, end, result, lamps[2], cabinet_lamps[2], limit[2];

    /* The checks. */
    uint8_t manner, line_size, list_size, words_size, longest[2];

    /* The logs: any, and one of an execution, which goes on otherwise. */
    uint8_t entries[2], is_odd, true_entries, other_entries, log_spoils, log_spoilt_at, log_spoilt_with;

    /* The kinds of lamps and the entries of a log, which are repeated where more are needed. */
    uint8_t kinds_of_line[14], entries_of_log[14];
};

enum { ARGUMENTS = 64 };
static_assert(sizeof(struct arguments) == ARGUMENTS, "the arguments are bytes alone");

/* One byte in sixteen, and one in sixty-four; but none of those that libFuzzer likes to put everywhere, as 0 and 255. */
static inline bool is_rare(uint8_t byte) { return byte % 16 == 9; }
static inline bool is_very_rare(uint8_t byte) { return byte % 64 == 41; }

static inline uint16_t number_of(const uint8_t bytes[2]) { return (uint16_t)(bytes[0] | bytes[1] << 8); }

/* Bytes from here on are for numbers that a job does not have. */
enum { BEYOND = 246 };

/* Mostly below the count, which is not 0; else the count, a number that is slightly above it, or 255. */
static inline uint8_t mostly_below(uint8_t byte, uint32_t count)
{
    if (byte < BEYOND)
        return (uint8_t)(byte % count);
    return byte == UINT8_MAX ? UINT8_MAX : (uint8_t)(count + (byte - BEYOND) / 4);
}

/* Mostly a kind that lamps have; else 0 or one that is too high. */
static inline uint8_t mostly_kind(uint8_t byte, uint32_t kinds)
{
    if (byte < BEYOND)
        return (uint8_t)(1 + byte % kinds);
    return byte % 2 == 0 ? 0 : mostly_below(byte, kinds + 1);
}

/* Mostly few; else some hundreds or thousands, or about the most, and at most one more than that. */
static inline uint32_t mostly_few(const uint8_t bytes[2], uint32_t most)
{
    if (is_very_rare(bytes[0]))
        return most - 6 + bytes[1] % 8;
    return is_rare(bytes[0]) ? bytes[1] * 16u : bytes[1] % 24;
}

/* Mostly as large as is needed; else larger or smaller by up to 28 elements, or 0. */
static inline size_t mostly_enough(uint8_t byte, size_t needed)
{
    if (byte < 200)
        return needed;
    if (byte < 228)
        return needed + byte - 199;
    const size_t fewer = byte - 227;
    return byte == UINT8_MAX || fewer > needed ? 0 : needed - fewer;
}

#endif
