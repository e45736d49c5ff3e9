/* Events measured: the archive's guard beside the one in plain C (events.h).
 *
 *     events count SIDE     under callgrind: each case and each point of the curves once, with a dump
 *     events least          the same for the least that any guard must do
 *     events time           for each case the median of the ratios of archive to plain, taken in turns
 *     events memory         the bytes of a guard, and the deepest stack below each entry over all cases */
#define _GNU_SOURCE
#include <stdio.h>
#include <stdlib.h>
#include <string.h>
#include <time.h>
#include <ucontext.h>
#include <valgrind/callgrind.h>
#include "../include/guard_sha256.h"
#include "events.h"

/* ---- tables */

enum { FILE_PLACE = 128, LAST = 247, DEEP = 8, SIZE = 8 * PAGE };
enum { CHAIN = 127 }; /* the deepest folder there can be: a path of 254 bytes */

#define CHILD "a-child-with-a-long-name-%07u" /* 32 bytes, the longest name */

static char name_room[64];
static const char *name_of(const char *format, uint32_t k)
{
    snprintf(name_room, sizeof name_room, format, k);
    return name_room;
}

static void open_file(const char *path, uint32_t handle)
{
    char bytes[64];
    expect(call(bytes, (size_t)snprintf(bytes, sizeof bytes, "\3\3%s", path)), ASK, 0);
    expect(reply("\5\0\0\0", 4), DONE, handle);
}

/* The root and /a, a file of this size, which is open. */
static void one_file(uint32_t size)
{
    begin_image(2);
    add_root();
    add_node(2, 1, 1, size, "a");
    load_image();
    open_file("/a", 2);
}

static void small(void) { one_file(SIZE); }
static void empty(void) { one_file(0); }

/* Nodes of 12-byte names: files of four pages in the root, one of eight among them, and behind them a path eight
 * deep. */
static void nodes(uint32_t count)
{
    begin_image(count);
    add_root();
    for (uint32_t k = 1; k < count; k++) {
        if (k <= LAST)
            add_node(k + 1, 1, 1, k == FILE_PLACE ? SIZE : 4 * PAGE, name_of("file-%07u", k));
        else
            add_node(k + 1, k == LAST + 1 ? 1 : k, 2, 0, name_of("fold-%07u", k));
    }
    load_image();
}

static void full(void) { nodes(NODES); }
static void one_less(void) { nodes(NODES - 1); }

static void full_open(void)
{
    full();
    open_file("/file-0000128", FILE_PLACE + 1);
}

/* The longest image and the longest listing: 255 children with names of 32 bytes, 1,024 pages. */
static void children(uint32_t count)
{
    begin_image(count + 1);
    add_root();
    for (uint32_t k = 1; k <= count; k++)
        add_node(k + 1, 1, 1, k == 1 ? 8 * PAGE : 4 * PAGE, name_of(CHILD, k));
    load_image();
}

static void largest(void) { children(NODES - 1); }

/* The same with names that agree in their first 30 bytes, and but for one in the 31st: the last is k, and no slash may
 * stand in a name. */
static void alike(void)
{
    char name[NAME + 1];
    begin_image(NODES);
    add_root();
    for (uint32_t k = 1; k < NODES; k++) {
        int slash = k == '/';
        snprintf(name, sizeof name, "a-child-with-a-long-name-00000%c%c", slash ? 'b' : 'a', slash ? 'b' : (int)k);
        add_node(k + 1, 1, 1, k == 1 ? 8 * PAGE : 4 * PAGE, name);
    }
    load_image();
}

/* Folders, each in the one before it. */
static void add_chain(void)
{
    for (uint32_t k = 1; k <= CHAIN; k++)
        add_node(k + 1, k, 2, 0, "d");
}

/* The chain, then files in the root that have 1,024 pages. */
static void chained(void)
{
    begin_image(NODES);
    add_root();
    add_chain();
    for (uint32_t k = CHAIN + 1; k < NODES; k++)
        add_node(k + 1, 1, 1, 8 * PAGE, name_of(CHILD, k));
    load_image();
}

enum { CHAINED = IMAGE - CHAIN * (NAME - 1) }; /* the bytes of its image */

/* The same, each folder of the chain before the one that it stands in. */
static void deepest_first(void)
{
    begin_image(NODES);
    add_root();
    for (uint32_t k = 1; k <= CHAIN; k++)
        add_node(k + 1, k == CHAIN ? 1 : k + 2, 2, 0, "d");
    for (uint32_t k = CHAIN + 1; k < NODES; k++)
        add_node(k + 1, 1, 1, 8 * PAGE, name_of(CHILD, k));
    load_image();
}

/* Two folders, the first with all other nodes in it. */
static void one_folder(void)
{
    begin_image(NODES);
    add_root();
    add_node(2, 1, 2, 0, "d");
    add_node(3, 1, 2, 0, "g");
    for (uint32_t k = 3; k < NODES; k++)
        add_node(k + 1, 2, 1, 4 * PAGE, name_of(CHILD, k));
    load_image();
}

static void smallest(void)
{
    begin_image(1);
    add_root();
    load_image();
}

/* ---- what is handed in; 0 is what stands there when it is done */

enum { POSITION_CALL = 5 + 8 }; /* the length of a seek or a truncation */

static uint8_t handle_call[5 + DATA];
static size_t handle_length;

/* A call by handle with a number of some width. */
static void by_handle(int kind, uint32_t handle, uint32_t number, size_t width)
{
    memset(handle_call, 0, POSITION_CALL);
    handle_call[0] = (uint8_t)kind;
    memcpy(handle_call + 1, &handle, 4);
    memcpy(handle_call + 5, &number, 4);
    handle_length = 5 + width;
}

static uint32_t file_handle, position, count;

static void to_position(void)
{
    uint8_t seek[POSITION_CALL] = {GUARD_SEEK};
    memcpy(seek + 1, &file_handle, 4);
    memcpy(seek + 5, &position, 4);
    expect(call(seek, POSITION_CALL), DONE, position);
}

static void step_seek(void) { expect(call(handle_call, POSITION_CALL), DONE, 0); }
static void step_read(void) { expect(answered(call(handle_call, 9)), DONE, count); }
static void step_write(void) { expect(answered(call(handle_call, 5 + count)), DONE, count); }
static void step_truncate(void) { expect(answered(call(handle_call, POSITION_CALL)), DONE, 0); }

/* The file's last page only in part. */
static void full_part(void)
{
    full_open();
    by_handle(GUARD_TRUNCATE, FILE_PLACE + 1, 7 * PAGE + 100, 8);
    step_truncate();
}

static char path_call[2 + PATH];
static size_t path_length;
static uint8_t stat_reply[10];

/* A stat of the node in place k, of this kind and size. */
static void stat_of(const char *path, uint32_t k, int kind, uint32_t size)
{
    uint32_t id = k + 1;
    path_length = (size_t)snprintf(path_call, sizeof path_call, "\x0d%s", path);
    memcpy(stat_reply, &id, 4);
    stat_reply[4] = (uint8_t)kind;
    stat_reply[5] = 7;
    memcpy(stat_reply + 6, &size, 4);
}

static void step_stat(void)
{
    uint32_t size;
    memcpy(&size, stat_reply + 6, 4);
    call(path_call, path_length);
    expect(reply(stat_reply, 10), DONE, size);
}

static void step_reader_stat(void)
{
    uint32_t size;
    memcpy(&size, stat_reply + 6, 4);
    reader_call(path_call, path_length);
    expect(reply(stat_reply, 10), DONE, size);
}

static void step_create(void)
{
    call("\1\7/file-new0001", 15);
    expect(reply("\xe7\3\0\0", 4), DONE, 999);
    call("\x09/file-new0001", 14);
    expect(reply("\0\0\0\0", 4), DONE, 0);
}

#define DISK_FULL "\xe4\xff\xff\xff"

static void step_create_full(void)
{
    expect(call("\1\7/file-new0001", 15), ASK, 0);
    expect(reply(DISK_FULL, 4), REFUSED, 28);
}

/* Whole pages: none is fetched, and all but the last find room. */
static void step_write_full(void)
{
    outcome o = call(handle_call, 5 + count);
    for (uint32_t at = PAGE; at < count; at += PAGE)
        o = reply("\0\4\0\0", 4);
    expect(o, ASK, 0);
    expect(reply(DISK_FULL, 4), DONE, count - PAGE);
}

static void step_grow_full(void)
{
    expect(call(handle_call, POSITION_CALL), ASK, 0);
    expect(reply(DISK_FULL, 4), REFUSED, 28);
}

static void step_open(void)
{
    call("\3\3/file-0000247", 15);
    expect(reply("\7\0\0\0", 4), DONE, LAST + 1);
    call("\4\xf8\0\0\0", 5);
    expect(reply("\0\0\0\0", 4), DONE, 0);
}

static uint8_t listing[ANSWER];
static size_t listing_length, listed;

static void list_children(uint32_t n, int shuffled)
{
    uint8_t order[NODES] = {0}, *p = listing;
    uint32_t seed = 1;
    listed = n;
    for (uint32_t i = 0; i < n; i++) {
        uint32_t j = shuffled ? (seed = seed * 1103515245 + 12345) / 65536 % (i + 1) : i;
        order[i] = order[j];
        order[j] = (uint8_t)(i + 1);
    }
    for (uint32_t i = 0; i < n; i++) {
        const char *name = name_of(CHILD, order[i]);
        uint32_t id = order[i] + 1u;
        memcpy(p, &id, 4);
        p[4] = 1;
        p[5] = 32;
        memcpy(p + 6, name, 32);
        p += 38;
    }
    listing_length = (size_t)(p - listing);
}

static void step_readdir(void)
{
    call("\x0c/", 2);
    expect(reply(listing, listing_length), DONE, listed);
}

static uint8_t map_call[5], unmap_call[1 + ADDRESS], map_reply[ADDRESS + MAP_BYTES];

/* A map of so many bytes, that the host puts at an address. */
static void map_of(uint32_t address, uint32_t length)
{
    map_call[0] = GUARD_MAP;
    memcpy(map_call + 1, &length, 4);
    unmap_call[0] = GUARD_UNMAP;
    memcpy(unmap_call + 1, &address, 4);
    memcpy(map_reply, &address, 4);
    position = address;
    count = length;
}

static void step_map(void)
{
    expect(call(map_call, sizeof map_call), ASK, 0);
    expect(reply(map_reply, ADDRESS + count), DONE, position);
}

static void step_unmap(void)
{
    expect(call(unmap_call, sizeof unmap_call), ASK, 0);
    expect(reply("\0\0\0\0", 4), DONE, 0);
}

/* One map less than may live, each apart from the others. */
static void fifteen_maps(void)
{
    smallest();
    for (uint32_t k = 1; k < MAPS; k++) {
        map_of(2 * k * UNIT, UNIT);
        step_map();
    }
}

/* A rename that is sent on: the call's bytes with its kind and the first path's length before them. */
static void renamed(const char *bytes, size_t n)
{
    expect(call(bytes, n), ASK, 0);
    expect(reply("\0\0\0\0", 4), DONE, 0);
}

static void step_rename(void) { renamed("\x10\x0d/file-0000247/file-renamed", 28); }
static void step_rename_folder(void) { renamed("\x10\2/d/g/folder", 13); }
static void step_beneath(void) { expect(call("\x10\x0d/fold-0000248/fold-0000248/fold-0000249/x", 43), REFUSED, 22); }

static void step_save(void) { expect(save(), DONE, image_length); }
static void step_load(void) { expect(load(), DONE, 0); }

static void step_malformed(void) { expect(call("\1\7/a/../b", 9), REFUSED, 22); }
static void step_absent(void) { expect(call("\x09/file-absent", 13), REFUSED, 2); }
static void step_read_only(void) { expect(reader_call("\1\7/file-new-000001", 18), REFUSED, 30); }
static void step_handle(void) { expect(call(handle_call, POSITION_CALL), REFUSED, 9); }

/* ---- the cases */

enum { NO_CALL = 0, OTHER_HANDLE = -1 }; /* of a row that makes none, or one with a handle that is not open */

struct least { size_t hashes, hashed, copied, looks; };
struct row { const char *name; void (*table)(void), (*before)(void), (*step)(void); int kind; uint32_t position,
    count; struct least least; };

/* `before` is not measured. The least: so many hashes of so many bytes, so many bytes copied once, or read as a copy
 * reads them, so many nodes or maps looked at. */
static const struct row rows[] = {
    {"seek, two nodes", small, NULL, step_seek, GUARD_SEEK, 0, 0, {0, 0, 0, 1}},
    {"seek, 256 nodes", full_open, NULL, step_seek, GUARD_SEEK, 0, 0, {0, 0, 0, 1}},
    {"stat, shallow, 256 nodes", full, NULL, step_stat, GUARD_STAT, 1, 0, {0, 0, 24, NODES}},
    {"stat, eight deep, 256 nodes", full, NULL, step_stat, GUARD_STAT, DEEP, 0, {0, 0, 115, NODES}},
    {"create and remove, 256 nodes", one_less, NULL, step_create, GUARD_CREATE, 0, 0, {0, 0, 42, 2 * NODES}},
    {"open and close, 256 nodes", full, NULL, step_open, GUARD_OPEN, 0, 0, {0, 0, 15, NODES}},
    {"read 1", full_open, to_position, step_read, GUARD_READ, 0, 1, {1, PAGE, 1, 1}},
    {"read 1,024, aligned", full_open, to_position, step_read, GUARD_READ, PAGE, PAGE, {1, PAGE, PAGE, 1}},
    {"read 1,024, not aligned", full_open, to_position, step_read, GUARD_READ, 1000, PAGE, {2, PAGE, PAGE, 1}},
    {"read 4,096, aligned", full_open, to_position, step_read, GUARD_READ, PAGE, DATA, {4, PAGE, DATA, 1}},
    {"read 4,096, not aligned", full_open, to_position, step_read, GUARD_READ, 1000, DATA, {5, PAGE, DATA, 1}},
    {"write 1", full_open, to_position, step_write, GUARD_WRITE, 0, 1, {2, PAGE, PAGE, 1}},
    {"write 1,024, aligned", full_open, to_position, step_write, GUARD_WRITE, PAGE, PAGE, {1, PAGE, PAGE, 1}},
    {"write 1,024, not aligned", full_open, to_position, step_write, GUARD_WRITE, 1000, PAGE, {4, PAGE, 2 * PAGE, 1}},
    {"write 4,096, aligned", full_open, to_position, step_write, GUARD_WRITE, PAGE, DATA, {4, PAGE, DATA, 1}},
    {"write 4,096, not aligned", full_open, to_position, step_write, GUARD_WRITE, 1000, DATA, {7, PAGE, 5 * PAGE, 1}},
    {"truncate, on an edge", full_open, restore, step_truncate, GUARD_TRUNCATE, 3 * PAGE, 0, {0, 0, 0, 1}},
    {"truncate, inside a page", full_open, restore, step_truncate, GUARD_TRUNCATE, 3 * PAGE + 100, 0,
        {2, PAGE, PAGE, 1}},
    {"grow, inside the last page", full_part, restore, step_truncate, GUARD_TRUNCATE, 8 * PAGE, 0, {0, 0, 0, 1}},
    {"grow by 32 pages", full_open, restore, step_truncate, GUARD_TRUNCATE, 40 * PAGE, 0, {0, 0, 32 * DIGEST, 1}},
    {"grow by 64 pages, two nodes", empty, restore, step_truncate, GUARD_TRUNCATE, 64 * PAGE, 0,
        {0, 0, 64 * DIGEST, 1}},
    {"create, disk full", one_less, NULL, step_create_full, GUARD_CREATE, 0, 0, {0, 0, 15, NODES}},
    {"write 3 pages, third full", full_open, to_position, step_write_full, GUARD_WRITE, PAGE, 3 * PAGE,
        {3, PAGE, 3 * PAGE, 1}},
    {"grow by 32 pages, disk full", full_open, NULL, step_grow_full, GUARD_TRUNCATE, 40 * PAGE, 0, {0, 0, 0, 1}},
    {"rename a file, 256 nodes", full, restore, step_rename, NO_CALL, 0, 0, {0, 0, 40, NODES}},
    {"rename a directory of 253", one_folder, restore, step_rename_folder, NO_CALL, 0, 0, {0, 0, 19, NODES}},
    {"readdir, 255 children", largest, NULL, step_readdir, GUARD_READDIR, 0, NODES - 1, {0, 0, ANSWER, NODES}},
    {"readdir, 255 shuffled", largest, NULL, step_readdir, GUARD_READDIR, 1, NODES - 1, {0, 0, ANSWER, NODES}},
    {"map 4,096", smallest, restore, step_map, GUARD_MAP, UNIT, UNIT, {0, 0, UNIT, 0}},
    {"map 65,536", smallest, restore, step_map, GUARD_MAP, UNIT, MAP_BYTES, {0, 0, MAP_BYTES, 0}},
    {"map 4,096, 15 maps", fifteen_maps, restore, step_map, GUARD_MAP, 64 * UNIT, UNIT, {0, 0, UNIT, MAPS - 1}},
    {"unmap, 15 maps", fifteen_maps, restore, step_unmap, GUARD_MAP, 30 * UNIT, UNIT, {0, 0, 0, MAPS - 1}},
    {"save, 23 bytes", smallest, NULL, step_save, NO_CALL, 0, 0, {1, 23, 23, 1}},
    {"save, 44,776 bytes", largest, NULL, step_save, NO_CALL, 0, 0, {1, IMAGE, IMAGE, NODES}},
    {"load, 23 bytes", smallest, NULL, step_load, NO_CALL, 0, 0, {1, 23, 23, 1}},
    {"load, 44,776 bytes", largest, NULL, step_load, NO_CALL, 0, 0, {1, IMAGE, IMAGE, NODES}},
    {"load, 127 in a chain", chained, NULL, step_load, NO_CALL, 0, 0, {1, CHAINED, CHAINED, NODES}},
    {"load, 127 deepest first", deepest_first, NULL, step_load, NO_CALL, 0, 0, {1, CHAINED, CHAINED, NODES}},
    {"load, names alike", alike, NULL, step_load, NO_CALL, 0, 0, {1, IMAGE, IMAGE, NODES}},
    {"refused 22, a path's form", small, NULL, step_malformed, NO_CALL, 0, 0, {0, 0, 0, 1}},
    {"refused 22, under itself", full, NULL, step_beneath, NO_CALL, 0, 0, {0, 0, 0, NODES}},
    {"refused 2, absent, 256 nodes", full, NULL, step_absent, NO_CALL, 0, 0, {0, 0, 0, NODES}},
    {"refused 30, read-only", full, NULL, step_read_only, NO_CALL, 0, 0, {0, 0, 0, 1}},
    {"stat, read-only, 256 nodes", full, NULL, step_reader_stat, GUARD_STAT, 1, 0, {0, 0, 24, NODES}},
    {"refused 9, no such handle", full_open, NULL, step_handle, OTHER_HANDLE, 0, 0, {0, 0, 0, 1}},
};
enum { ROWS = sizeof rows / sizeof *rows };

static void deep_path(char *path, size_t depth)
{
    if (depth == 1) {
        strcpy(path, "/file-0000247");
        return;
    }
    for (uint32_t k = 1; k <= depth; k++)
        path += sprintf(path, "/fold-%07u", LAST + k);
}

/* The call of a row, made for the table that it is run on. */
static void make_call(const struct row *r)
{
    char path[PATH + 1];
    file_handle = r->table == small || r->table == empty ? 2 : FILE_PLACE + 1;
    position = r->position;
    count = r->count;
    switch (r->kind) {
    case GUARD_SEEK: by_handle(GUARD_SEEK, file_handle, 0, 8); break;
    case GUARD_READ: by_handle(GUARD_READ, file_handle, count, 4); break;
    case GUARD_WRITE:
        by_handle(GUARD_WRITE, file_handle, 0, 0);
        for (uint32_t i = 0; i < count; i++)
            handle_call[5 + i] = page[(position + i) % PAGE];
        break;
    case GUARD_TRUNCATE: by_handle(GUARD_TRUNCATE, file_handle, position, 8); break;
    case OTHER_HANDLE: by_handle(GUARD_SEEK, 777, 0, 8); break;
    case GUARD_READDIR: list_children(count, position); break;
    case GUARD_MAP: map_of(position, count); break;
    case GUARD_STAT:
        deep_path(path, position);
        stat_of(path, position == 1 ? LAST : LAST + position, position == 1 ? 1 : 2, position == 1 ? 4 * PAGE : 0);
    }
}

static void set_up(const struct row *r)
{
    r->table();
    make_call(r);
    keep();
}

/* ---- counts */

/* A dump begins the counts anew; those called `before` are of what is not measured. */
static void dump(const char *name)
{
    CALLGRIND_DUMP_STATS_AT(name);
    (void)name;
}

static void count_row(const struct row *r)
{
    set_up(r);
    if (r->before)
        r->before();
    dump("before");
    r->step();
    dump(r->name);
}

static void count_point(const char *curve, uint32_t x, void (*step)(void))
{
    char name[64];
    snprintf(name, sizeof name, "curve %s %u", curve, x);
    dump("before");
    step();
    dump(name);
}

/* The chain is there; the walk goes so deep. */
static void count_depths(void)
{
    char path[PATH + 1];
    begin_image(CHAIN + 1);
    add_root();
    add_chain();
    load_image();
    for (uint32_t depth = 1; depth <= CHAIN; depth += depth < 8 ? 1 : 7) {
        for (uint32_t k = 0; k < depth; k++)
            memcpy(path + 2 * k, "/d", 3);
        stat_of(path, depth, 2, 0);
        count_point("depth", depth, step_stat);
    }
}

/* The last of so many nodes is looked up. */
static void count_nodes(void)
{
    for (uint32_t n = 1; n <= NODES; n += n == 1 ? 15 : 16) {
        char path[PATH + 1] = "/";
        children(n - 1);
        if (n > 1)
            snprintf(path, sizeof path, "/%s", name_of(CHILD, n - 1));
        stat_of(path, n - 1, n > 1 ? 1 : 2, n == 1 ? 0 : n == 2 ? 8 * PAGE : 4 * PAGE);
        count_point("nodes", n, step_stat);
    }
}

static void read_all(void)
{
    for (uint32_t left = position; left > 0; left -= count) {
        count = left < DATA ? left : DATA;
        step_read();
    }
}

/* A file of so many pages is read from end to end. */
static void count_pages(void)
{
    for (uint32_t n = 1; n <= FILE_BYTES / PAGE; n += n < 4 ? 1 : 4) {
        begin_image(2);
        add_root();
        add_node(2, 1, 1, n * PAGE, "a");
        load_image();
        open_file("/a", 2);
        by_handle(GUARD_READ, 2, DATA, 4);
        position = n * PAGE;
        count_point("pages", n, read_all);
    }
}

static void count_children(void)
{
    for (uint32_t n = 1; n < NODES; n += n == 1 ? 14 : 16) {
        children(n);
        list_children(n, 0);
        count_point("children", n, step_readdir);
    }
}

static void count_all(void)
{
    for (int i = 0; i < ROWS; i++)
        count_row(rows + i);
    count_depths();
    count_nodes();
    count_pages();
    count_children();
}

/* ---- the least */

static struct node looked[2 * NODES];
static uint8_t copied[2][MAP_BYTES];
static uint32_t absent;
static const struct node *volatile found;

__attribute__((noinline)) void the_least(const struct least *l)
{
    const struct node *k = looked, *end = looked + l->looks;
    for (size_t i = 0; i < l->hashes; i++)
        guard_sha256(copied[0], l->hashed, digest);
    if (l->copied)
        memcpy(copied[1], copied[0], l->copied);
    while (k < end && k->id != absent)
        k++;
    found = k;
}

static void count_least(void)
{
    for (uint32_t i = 0; i < 2 * NODES; i++)
        looked[i].id = i + 1;
    for (int i = 0; i < ROWS; i++) {
        dump("before");
        the_least(&rows[i].least);
        dump(rows[i].name);
    }
}

/* ---- times */

static double now(void)
{
#ifdef __x86_64__
    return (double)__builtin_ia32_rdtsc();
#else
    struct timespec t;
    clock_gettime(CLOCK_MONOTONIC, &t);
    return (double)t.tv_sec * 1e9 + (double)t.tv_nsec;
#endif
}

/* So many runs of a row on a side; what comes before a step is left out, and so is the clock itself. */
static double batch(const struct row *r, int which, int runs, double clock)
{
    double sum = 0, start = now();
    side = which;
    if (!r->before) {
        for (int i = 0; i < runs; i++)
            r->step();
        return now() - start;
    }
    for (int i = 0; i < runs; i++) {
        r->before();
        start = now();
        r->step();
        sum += now() - start - clock;
    }
    return sum;
}

static int by_value(const void *a, const void *b)
{
    double x = *(const double *)a, y = *(const double *)b;
    return (x > y) - (x < y);
}

static double median(double *x, int n)
{
    qsort(x, (size_t)n, sizeof *x, by_value);
    return x[n / 2];
}

static double clock_cost(void)
{
    double cost[1001];
    for (int i = 0; i < 1001; i++) {
        double start = now();
        cost[i] = now() - start;
    }
    return median(cost, 1001);
}

static void time_row(const struct row *r, double clock)
{
    enum { TURNS = 201 };
    double ratio[TURNS];
    int runs = 1;
    for (side = SIDES - 1; side >= 0; side--)
        set_up(r);
    while (runs < 4096 && batch(r, PLAIN, runs, clock) < 500000)
        runs *= 2;
    for (int i = 0; i < TURNS; i++) {
        double a = batch(r, i % 2, runs, clock), b = batch(r, 1 - i % 2, runs, clock);
        ratio[i] = i % 2 == ARCHIVE ? a / b : b / a;
    }
    printf("%s\t%.3f\n", r->name, median(ratio, TURNS));
    fflush(stdout);
}

/* ---- memory */

static ucontext_t here, there;

static void every_row(void)
{
    for (side = 0; side < SIDES; side++)
        for (int i = 0; i < ROWS; i++) {
            set_up(rows + i);
            rows[i].step();
        }
}

static void print_memory(void)
{
    enum { STACK = 1 << 17 };
    uint8_t *stack = malloc(STACK);
    watch_stack(stack);
    getcontext(&there);
    there.uc_stack.ss_sp = stack;
    there.uc_stack.ss_size = STACK;
    there.uc_link = &here;
    makecontext(&there, every_row, 0);
    swapcontext(&here, &there);
    for (int i = 0; i < SIDES; i++) {
        printf("%s\tguard\t%zu\n", side_names[i], guard_bytes(i));
        for (int e = 0; e < ENTRIES; e++)
            printf("%s\t%s\t%zu\n", side_names[i], entry_names[e], deepest(i, e));
    }
    watch_stack(NULL);
    free(stack);
}

int main(int n, char **words)
{
    const char *what = n > 1 ? words[1] : "";
    if (!strcmp(what, "count") && n > 2) {
        side = strcmp(words[2], side_names[PLAIN]) ? ARCHIVE : PLAIN;
        count_all();
    } else if (!strcmp(what, "least")) {
        count_least();
    } else if (!strcmp(what, "time")) {
        for (int i = 0; i < ROWS; i++)
            time_row(rows + i, clock_cost());
    } else if (!strcmp(what, "memory")) {
        print_memory();
    } else {
        return 2;
    }
    return 0;
}
