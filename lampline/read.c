/*
 * The reader: the numbers of a job file, where its parts stand, and which starts it marks. Of a file that is refused, the numbers
 * and places are shown as they stand in it, so that what is wrong can be seen.
 */
#include "commands.h"
#include "files.h"
#include "nessflurry.h"
#include "tables.h"

#include <stdio.h>

enum part { MARKS, CELLS, STARTS, GOAL, PLAN, PARTS };

enum { NUMBERS = NESSFLURRY_HEAD_MARKS_OFFSET, ZERO_AT = 7, PLACES_AT = 8, HEAD_BYTES = 28 };

/* The first bytes of a file, as the library answers them of one that it does not refuse. */
static void take_head(const struct file *file, uint16_t head[NESSFLURRY_HEAD_SIZE])
{
    const uint8_t *const place = file->bytes + PLACES_AT;
    for (int i = 0; i < NUMBERS; i++)
        head[i] = file->bytes[i];
    for (int i = 0; i < 2 * PARTS; i++)
        head[NUMBERS + i] = (uint16_t)(place[2 * i] | place[2 * i + 1] << 8);
}

static void print_numbers(const uint16_t *head)
{
    printf("    A %d (actions), W %d (world states), C %d (lamp kinds), R %d (results), "
           "S %d (program states before the final one), first state %d, E %d (end kinds)\n",
           head[NESSFLURRY_HEAD_ACTIONS], head[NESSFLURRY_HEAD_WORLDS], head[NESSFLURRY_HEAD_KINDS],
           head[NESSFLURRY_HEAD_RESULTS], head[NESSFLURRY_HEAD_STATES], head[NESSFLURRY_HEAD_FIRST_STATE],
           head[NESSFLURRY_HEAD_LAST_END] + 1);
}

/* The length that the numbers make. */
static uint32_t due_length(const uint16_t *head, enum part part)
{
    const uint32_t actions = head[NESSFLURRY_HEAD_ACTIONS], worlds = head[NESSFLURRY_HEAD_WORLDS];
    const uint32_t columns = head[NESSFLURRY_HEAD_LAST_END] + 1u + head[NESSFLURRY_HEAD_KINDS];
    switch (part) {
    case MARKS: return actions;
    case CELLS: return 2 * actions * worlds * columns;
    case STARTS: return worlds;
    case GOAL: return worlds * columns;
    default: return head[NESSFLURRY_HEAD_STATES] * (1u + head[NESSFLURRY_HEAD_RESULTS]);
    }
}

/* Offset and length of each part stand side by side in the head, in the order of the parts. */
static void print_parts(const uint16_t *head)
{
    static const char *const names[PARTS] = {"marks", "cells", "starts", "goal", "plan"};
    for (enum part part = MARKS; part < PARTS; part++) {
        const uint16_t *const place = head + NESSFLURRY_HEAD_MARKS_OFFSET + 2 * part;
        const uint32_t due = due_length(head, part);
        printf("    %-6s at %5d, %5d byte%s", names[part], place[0], place[1], plural(place[1]));
        if (place[1] != due)
            printf(", and %u due", due);
        printf("\n");
    }
}

static void print_starts(const struct tables *tables)
{
    printf("    starts marked:");
    for (int world = 0; world < tables->head[NESSFLURRY_HEAD_WORLDS]; world++)
        if (is_start(tables, (uint8_t)world))
            printf(" %d", world);
    printf("\n");
}

static enum status tell_refused(const struct file *file, uint64_t answer)
{
    uint16_t head[NESSFLURRY_HEAD_SIZE];
    print_refusal(file->name, answer);
    printf("    %zu byte%s\n", file->size, plural((uint32_t)file->size));
    if (file->size < HEAD_BYTES)
        return NOT_GOOD;
    take_head(file, head);
    print_numbers(head);
    if (file->bytes[ZERO_AT] != 0)
        printf("    byte %d is %d, and has to be 0\n", ZERO_AT, file->bytes[ZERO_AT]);
    print_parts(head);
    return NOT_GOOD;
}

static enum status tell(const struct file *file)
{
    struct tables tables;
    const uint64_t answer = read_tables(&tables, file);
    if (nessflurry_code_of(answer) == NESSFLURRY_REFUSED)
        return tell_refused(file, answer);
    printf("%s: read\n    %zu bytes\n", file->name, file->size);
    print_numbers(tables.head);
    print_parts(tables.head);
    print_starts(&tables);
    return GOOD;
}

enum status read_files(const struct arguments *arguments)
{
    enum status status = GOOD;
    for (int i = 0; i < arguments->count; i++) {
        struct file file;
        status = worse(status, read_job_file(&file, arguments->words[i]) ? tell(&file) : NO_ANSWER);
    }
    return status;
}
