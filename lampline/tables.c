#include "tables.h"

enum { NOT_LEGAL = 255 }; /* as a cell's result */

uint64_t read_tables(struct tables *tables, const struct file *file)
{
    tables->bytes = file->bytes;
    return nessflurry_read(file->bytes, file->size, tables->head);
}

static const uint8_t *part(const struct tables *tables, int offset) { return tables->bytes + tables->head[offset]; }

static size_t columns(const struct tables *tables)
{
    return (size_t)tables->head[NESSFLURRY_HEAD_LAST_END] + 1 + tables->head[NESSFLURRY_HEAD_KINDS];
}

struct cell cell_at(const struct tables *tables, uint8_t action, uint8_t world, uint8_t column)
{
    const size_t row = (size_t)action * tables->head[NESSFLURRY_HEAD_WORLDS] + world;
    const uint8_t *const cell = part(tables, NESSFLURRY_HEAD_CELLS_OFFSET) + 2 * (row * columns(tables) + column);
    return (struct cell){cell[1] != NOT_LEGAL, cell[0], cell[1]};
}

bool goal_holds(const struct tables *tables, uint8_t world, uint8_t column)
{
    return part(tables, NESSFLURRY_HEAD_GOAL_OFFSET)[world * columns(tables) + column] == 1;
}

bool is_start(const struct tables *tables, uint8_t world) { return part(tables, NESSFLURRY_HEAD_STARTS_OFFSET)[world] == 1; }
