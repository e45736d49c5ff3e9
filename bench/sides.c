/* events.h: the two guards, and tables to measure them on. */
#include "events.h"
#include <stdio.h>
#include <stdlib.h>
#include <string.h>
#include "../include/guard_sha256.h"

const char *const side_names[SIDES] = {"archive", "plain"},
    *const entry_names[ENTRIES] = {"fresh", "call", "reader_call", "reply", "save", "load"};
uint8_t answer[ANSWER], request[REQUEST], image[IMAGE], digest[DIGEST], page[PAGE];
size_t image_length;
int side;

static guard archive, archive_kept;
static struct plain_guard plain, plain_kept;

/* ---- the stack: painted below the caller of an entry before it, and looked at after it */

static uint8_t *stack_bottom;
static size_t depths[SIDES][ENTRIES];

static __attribute__((noinline)) uint8_t *paint(void)
{
    uint8_t *here = (uint8_t *)__builtin_frame_address(0);
    for (volatile uint8_t *p = stack_bottom; p < here - 128; p++)
        *p = 0xa5;
    return here;
}

static void note_depth(int entry, const uint8_t *from)
{
    const uint8_t *p = stack_bottom;
    while (*p == 0xa5)
        p++;
    if ((size_t)(from - p) > depths[side][entry])
        depths[side][entry] = (size_t)(from - p);
}

void watch_stack(uint8_t *bottom) { stack_bottom = bottom; }
size_t deepest(int which, int entry) { return depths[which][entry]; }

#define ENTERED(entry, archive_call, plain_call) \
    uint8_t *from = stack_bottom ? paint() : NULL; \
    outcome o = side == ARCHIVE ? archive_call : plain_call; \
    if (from) \
        note_depth(entry, from); \
    return o

/* ---- the entries */

outcome fresh(void)
{
    ENTERED(FRESH, guard_entry_fresh(archive.memory, sizeof archive), plain_fresh(&plain));
}

outcome call(const void *b, size_t n)
{
    ENTERED(CALL, guard_call(&archive, b, n, answer, ANSWER, request, REQUEST),
            plain_call(&plain, b, n, answer, ANSWER, request, REQUEST));
}

/* A read-only guard in the same memory. */
outcome reader_call(const void *b, size_t n)
{
    ENTERED(READER_CALL,
            guard_entry_reader_call(archive.memory, sizeof archive, b, n, answer, ANSWER, request, REQUEST),
            plain_reader_call(&plain, b, n, answer, ANSWER, request, REQUEST));
}

outcome reply(const void *b, size_t n)
{
    ENTERED(REPLY, guard_reply(&archive, b, n, answer, ANSWER, request, REQUEST),
            plain_reply(&plain, b, n, answer, ANSWER, request, REQUEST));
}

outcome save(void)
{
    static uint8_t written[IMAGE], seal[DIGEST];
    ENTERED(SAVE, guard_save(&archive, written, IMAGE, seal), plain_save(&plain, written, IMAGE, seal));
}

outcome load(void)
{
    ENTERED(LOAD, guard_load(&archive, image, image_length, digest, DIGEST),
            plain_load(&plain, image, image_length, digest, DIGEST));
}

void expect(outcome o, int32_t kind, uint64_t number)
{
    if (o.kind == kind && o.number == number)
        return;
    fprintf(stderr, "events: %s: %d %llu, not %d %llu\n", side_names[side], o.kind, (unsigned long long)o.number, kind,
        (unsigned long long)number);
    exit(1);
}

outcome answered(outcome o)
{
    while (o.kind == ASK)
        o = request[0] == 6 ? reply(page, PAGE) : request[0] == 7 ? reply("\0\4\0\0", 4) : reply("\0\0\0\0", 4);
    return o;
}

void keep(void)
{
    archive_kept = archive;
    plain_kept = plain;
}

void restore(void)
{
    if (side == ARCHIVE)
        archive = archive_kept;
    else
        plain = plain_kept;
}

size_t guard_bytes(int which) { return which == ARCHIVE ? sizeof archive : sizeof plain; }

/* ---- images */

static uint8_t *end;
static uint32_t pages;

static void put(uint32_t x, int width)
{
    for (; width > 0; width--, x >>= 8)
        *end++ = (uint8_t)x;
}

void begin_image(uint32_t nodes)
{
    end = image;
    pages = 0;
    put(nodes, 4);
}

void add_node(uint32_t id, uint32_t parent, int kind, uint32_t size, const char *name)
{
    size_t n = strlen(name);
    put(id, 4), put(parent, 4), put((uint32_t)kind, 1), put(7, 1), put(size, 4), put((uint32_t)n, 1);
    memcpy(end, name, n);
    end += n;
    pages += (size + PAGE - 1) / PAGE;
}

void add_root(void) { add_node(1, 0, 2, 0, ""); }

void load_image(void)
{
    for (int i = 0; i < PAGE; i++)
        page[i] = (uint8_t)(i * 7 + i / 251);
    put(pages, 4);
    for (; pages > 0; pages--, end += DIGEST)
        guard_sha256(page, PAGE, end);
    image_length = (size_t)(end - image);
    guard_sha256(image, image_length, digest);
    expect(fresh(), DONE, 0);
    expect(load(), DONE, 0);
}
