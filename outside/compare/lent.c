#define _DEFAULT_SOURCE
#include "lent.h"

#include <stdio.h>
#include <stdlib.h>
#include <string.h>
#include <sys/mman.h>
#include <unistd.h>

enum { GUARD_BYTES = 64, GUARD_BYTE = 0xA5 };

void open_room(struct lent *lent, size_t most)
{
    size_t page = (size_t)sysconf(_SC_PAGESIZE);
    lent->room_size = (most + GUARD_BYTES + page - 1) / page * page;
    uint8_t *whole = mmap(NULL, lent->room_size + 2 * page, PROT_NONE, MAP_PRIVATE | MAP_ANONYMOUS, -1, 0);
    if (whole == MAP_FAILED || mprotect(whole + page, lent->room_size, PROT_READ | PROT_WRITE) != 0) {
        perror("no memory to lend");
        exit(2);
    }
    lent->room = whole + page;
}

void *lend(struct lent *lent, const void *content, size_t size, bool at_end)
{
    lent->at = at_end ? lent->room + lent->room_size - size : lent->room;
    lent->guard = at_end ? lent->at - GUARD_BYTES : lent->at + size;
    memset(lent->guard, GUARD_BYTE, GUARD_BYTES);
    memcpy(lent->at, content, size);
    return lent->at;
}

bool guard_holds(const struct lent *lent)
{
    for (int i = 0; i < GUARD_BYTES; i++)
        if (lent->guard[i] != GUARD_BYTE)
            return false;
    return true;
}
