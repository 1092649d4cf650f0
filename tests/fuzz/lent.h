/* Buffers as they are lent to a call: the last byte stands before a page that cannot be touched, guard bytes before the first. */
#ifndef LENT_H
#define LENT_H

#include <stdbool.h>
#include <stdint.h>
#include <stdio.h>
#include <stdlib.h>
#include <string.h>
#include <sys/mman.h>

#define LENT_PAGE 4096u
#define LENT_ROOM (5 * LENT_PAGE)
#define LENT_GUARD 64u

struct lent {
    /* The end of the room, and the start of the page behind it. */
    uint8_t *end;
    size_t size;
    uint8_t before[LENT_ROOM];
};

static inline void require(bool held, const char *what)
{
    if (!held) {
        fprintf(stderr, "fuzz: %s\n", what);
        abort();
    }
}

static inline void lent_make(struct lent *lent)
{
    uint8_t *room = mmap(NULL, LENT_ROOM + LENT_PAGE, PROT_READ | PROT_WRITE, MAP_PRIVATE | MAP_ANONYMOUS, -1, 0);
    require(room != MAP_FAILED, "no memory");
    lent->end = room + LENT_ROOM;
    lent->size = 0;
    require(mprotect(lent->end, LENT_PAGE, PROT_NONE) == 0, "no guard page");
}

static inline uint8_t *lent_start(const struct lent *lent) { return lent->end - lent->size; }

/* Lends so many bytes, at most LENT_ROOM - LENT_GUARD, and keeps a copy of what they hold. */
static inline void *lend(struct lent *lent, size_t size)
{
    lent->size = size;
    uint8_t *start = lent_start(lent);
    memset(start - LENT_GUARD, 0x5a, LENT_GUARD);
    memcpy(lent->before, start, size);
    return start;
}

/* The same after filling them. */
static inline void *lend_filled(struct lent *lent, size_t size, uint8_t value)
{
    memset(lent->end - size, value, size);
    return lend(lent, size);
}

/* Whether the guard bytes stand, and all bytes but the first `written` are as they were. */
static inline bool lent_kept(const struct lent *lent, size_t written)
{
    const uint8_t *start = lent_start(lent), *guard = start - LENT_GUARD;
    /* All equal, and the first one right. */
    if (*guard != 0x5a || memcmp(guard, guard + 1, LENT_GUARD - 1) != 0)
        return false;
    return written <= lent->size && memcmp(start + written, lent->before + written, lent->size - written) == 0;
}

#endif
