/*
 * The tables of a job file that the library has read (docs/FORMAT.md).
 */
#ifndef LAMPLINE_TABLES_H
#define LAMPLINE_TABLES_H

#include "files.h"
#include "nessflurry.h"

struct tables {
    const uint8_t *bytes;
    uint16_t head[NESSFLURRY_HEAD_SIZE];
};

struct cell {
    bool legal;
    uint8_t next, result;
};

/* The library's answer; the tables are there if it is not a refusal. */
uint64_t read_tables(struct tables *tables, const struct file *file);

struct cell cell_at(const struct tables *tables, uint8_t action, uint8_t world, uint8_t column);
bool goal_holds(const struct tables *tables, uint8_t world, uint8_t column);
bool is_start(const struct tables *tables, uint8_t world);

/* The end kinds are the first columns, and the lamp kinds come after them. */
static inline uint8_t lamp_column(const struct tables *tables, uint8_t kind)
{
    return (uint8_t)(tables->head[NESSFLURRY_HEAD_LAST_END] + kind);
}

#endif
