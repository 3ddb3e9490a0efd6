/*
 * Memory to be lent to one side. What is lent lies right against a page that nobody may touch, after it or before it, so that
 * a read or write outside it traps there; on its other side stand guard bytes, so that a write is seen there.
 */
#ifndef OUTSIDE_LENT_H
#define OUTSIDE_LENT_H

#include <stdbool.h>
#include <stddef.h>
#include <stdint.h>

struct lent {
    uint8_t *room, *at, *guard;
    size_t room_size;
};

/* Room for up to `most` bytes. */
void open_room(struct lent *lent, size_t most);

/* Lends a copy of the content, against the page after the room or against that before it. */
void *lend(struct lent *lent, const void *content, size_t size, bool at_end);

bool guard_holds(const struct lent *lent);

#endif
