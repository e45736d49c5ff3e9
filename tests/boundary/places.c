#define _GNU_SOURCE
#include "places.h"

#include <stdio.h>
#include <stdlib.h>
#include <string.h>
#include <sys/mman.h>
#include <unistd.h>

enum { LONGEST = 1 << 21 };

static uint8_t pattern[LONGEST];
static int is_high;
static size_t behind_low;

void places_turn(int high, size_t shift)
{
    is_high = high;
    behind_low = shift;
}

void places_begin(int high)
{
    places_turn(high, 0);
    for (size_t i = 0; i < LONGEST; i++) {
        uint8_t byte = (uint8_t)(i * 167 + i / 256 * 31 + 90);
        pattern[i] = high ? (uint8_t)~byte : byte;
    }
}

static void fail(const char *what)
{
    perror(what);
    exit(2);
}

struct place place_for(const char *name, size_t bytes)
{
    size_t page = (size_t)sysconf(_SC_PAGESIZE);
    size_t room = (bytes + page - 1) / page * page;
    uint8_t *all = mmap(NULL, room + 2 * page, PROT_NONE, MAP_PRIVATE | MAP_ANONYMOUS, -1, 0);
    if (all == MAP_FAILED || room > LONGEST || mprotect(all + page, room, PROT_READ | PROT_WRITE))
        fail(name);
    struct place p = {name, all + page, room, NULL, 0};
    place_clear(&p);
    return p;
}

void place_lend(struct place *p, size_t length)
{
    if (length > p->room) {
        fprintf(stderr, "%s: no room for %zu bytes\n", p->name, length);
        exit(2);
    }
    p->length = length;
    if (is_high)
        p->at = p->start + p->room - length;
    else
        p->at = length ? p->start + (length + behind_low <= p->room ? behind_low : 0) : NULL;
}

void place_hold(struct place *p, const uint8_t *bytes, size_t length)
{
    place_lend(p, length);
    if (length)
        memcpy(p->at, bytes, length);
}

/* The pages on which something of the place is lent. */
static void protect(const struct place *p, int how)
{
    uintptr_t page = (uintptr_t)sysconf(_SC_PAGESIZE), at = (uintptr_t)p->at / page * page;
    if (p->length && mprotect((void *)at, (uintptr_t)p->at + p->length - at, how))
        fail(p->name);
}

void place_input(struct place *p, const uint8_t *bytes, size_t length)
{
    protect(p, PROT_READ | PROT_WRITE);
    place_hold(p, bytes, length);
    protect(p, PROT_READ);
}

void place_clear(struct place *p)
{
    memcpy(p->start, pattern, p->room);
}

static size_t before(const struct place *p)
{
    return p->at ? (size_t)(p->at - p->start) : 0;
}

int place_untouched(const struct place *p, size_t first)
{
    size_t behind = before(p) + first;
    return first <= p->length && !memcmp(p->start, pattern, before(p)) &&
        !memcmp(p->start + behind, pattern + behind, p->room - behind);
}

void place_restore(struct place *p, size_t first)
{
    memcpy(p->start + before(p), pattern + before(p), first);
}
