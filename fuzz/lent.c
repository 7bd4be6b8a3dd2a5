#include "lent.h"

#include <stdio.h>
#include <stdlib.h>
#include <string.h>
#include <sys/mman.h>

enum { PAGE = 4096, AROUND = 64 };

void broken(const char *promise, const char *file, int line)
{
    fprintf(stderr, "%s:%d: this does not hold: %s\n", file, line, promise);
    abort();
}

void lent_open(struct lent *lent, size_t room)
{
    room = (room + 2 * AROUND + PAGE - 1) / PAGE * PAGE;
    uint8_t *all = mmap(NULL, room + 2 * PAGE, PROT_NONE, MAP_PRIVATE | MAP_ANONYMOUS, -1, 0);
    HOLD(all != MAP_FAILED);
    HOLD(mprotect(all + PAGE, room, PROT_READ | PROT_WRITE) == 0);
    lent->pages = all + PAGE;
    lent->room = room;
    lent->heap = NULL;
    lent->len = 0;
}

/* Four bytes of canaries, counted from the first byte lent. Every fourth float is a NaN, so that patterns
   without a value stand among them. */
static uint32_t canary_of(uint32_t canary, size_t word)
{
    uint32_t bits = (uint32_t)word * 0x9E3779B9u ^ canary;
    return word % 4 == 0 ? bits | 0x7fc00000u : bits;
}

static uint8_t canary_at(uint32_t canary, size_t at)
{
    return (uint8_t)(canary_of(canary, at / 4) >> at % 4 * 8);
}

static void fill(uint8_t *bytes, size_t len, uint32_t canary)
{
    size_t at = 0;

    for (; at + 4 <= len; at += 4) {
        uint32_t bits = canary_of(canary, at / 4);
        memcpy(bytes + at, &bits, 4);
    }
    for (; at < len; at++)
        bytes[at] = canary_at(canary, at);
}

static bool filled(const uint8_t *bytes, size_t at, size_t len, uint32_t canary)
{
    for (; at < len && at % 4 != 0; at++)
        if (bytes[at] != canary_at(canary, at))
            return false;
    for (; at + 4 <= len; at += 4) {
        uint32_t bits;
        memcpy(&bits, bytes + at, 4);
        if (bits != canary_of(canary, at / 4))
            return false;
    }
    for (; at < len; at++)
        if (bytes[at] != canary_at(canary, at))
            return false;
    return true;
}

/* What lies in the pages on the side that has room, of what is lent. */
static uint8_t *around(const struct lent *lent)
{
    return lent->bytes == lent->pages ? lent->bytes + lent->len : lent->bytes - AROUND;
}

uint8_t *lend(struct lent *lent, size_t len, bool heap, bool at_start, uint32_t canary)
{
    HOLD(len + AROUND <= lent->room);
    lent_back(lent);
    lent->len = len;
    lent->canary = canary;
    if (heap) {
        /* Even of 0 bytes, so that the pointer is not null. */
        lent->bytes = lent->heap = malloc(len);
        HOLD(lent->bytes != NULL);
    } else {
        lent->bytes = at_start ? lent->pages : lent->pages + lent->room - len;
        fill(around(lent), AROUND, canary);
    }
    fill(lent->bytes, len, canary);
    return lent->bytes;
}

void lent_kept(const struct lent *lent, size_t from)
{
    HOLD(filled(lent->bytes, from, lent->len, lent->canary));
    if (!lent->heap)
        HOLD(filled(around(lent), 0, AROUND, lent->canary));
}

void lent_back(struct lent *lent)
{
    free(lent->heap);
    lent->heap = NULL;
}

void lent_writable(struct lent *lent, bool writable)
{
    if (!lent->heap)
        HOLD(mprotect(lent->pages, lent->room, writable ? PROT_READ | PROT_WRITE : PROT_READ) == 0);
}
