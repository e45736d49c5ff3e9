/* The file guard in plain C (guard.h). In the specification's order: tables, paths, calls, renames, maps, the read-only
 * guard, replies, saves and loads. */
#include "guard.h"
#include <stdbool.h>
#include <string.h>

void HASH(const uint8_t *message, size_t length, uint8_t out[DIGEST]);

enum {
    CREATE = 1, MKDIR, OPEN, CLOSE, SEEK, READ, WRITE, TRUNCATE, REMOVE, RMDIR, CHMOD, READDIR, STAT, MAP, UNMAP, RENAME
};
enum { IS_FILE = 1, IS_DIRECTORY = 2, MODE_READ = 4, MODE_WRITE = 2, MODE_SEARCH = 1, RIGHT_READ = 1, RIGHT_WRITE = 2 };

enum { NO_SPACE = -28 }; /* the status of a full disk */
enum { READ_ONLY = 30 };

/* What is waited for, where the call's own kind does not say it. */
enum { IDLE, WRITE_FETCH = 20, WRITE_STORE, CUT_FETCH, CUT_STORE, CUT };

static outcome done(uint64_t number, size_t length) { return (outcome){DONE, number, length}; }
static outcome ask(size_t length) { return (outcome){ASK, 0, length}; }
static outcome refused(unsigned number) { return (outcome){REFUSED, number, 0}; }

static uint32_t get4(const uint8_t *p)
{
    return p[0] | (uint32_t)p[1] << 8 | (uint32_t)p[2] << 16 | (uint32_t)p[3] << 24;
}
static uint64_t get8(const uint8_t *p) { return get4(p) | (uint64_t)get4(p + 4) << 32; }

static uint8_t *put4(uint8_t *p, uint32_t x)
{
    p[0] = (uint8_t)x, p[1] = (uint8_t)(x >> 8), p[2] = (uint8_t)(x >> 16), p[3] = (uint8_t)(x >> 24);
    return p + 4;
}

static uint32_t smaller(uint32_t a, uint32_t b) { return a < b ? a : b; }
static uint32_t larger(uint32_t a, uint32_t b) { return a < b ? b : a; }
static uint32_t pages_for(uint32_t size) { return (size + PAGE - 1) / PAGE; }

/* ---- tables */

static uint32_t find_id(const struct plain_guard *g, uint32_t id)
{
    uint32_t i = 0;
    while (i < g->nodes && g->node[i].id != id)
        i++;
    return i;
}

static bool is_child(const struct node *n, uint32_t parent, const uint8_t *name, size_t length)
{
    /* siblings' names often begin alike: the last byte tells most of them apart */
    return n->parent == parent && n->length == length && n->name[length - 1] == name[length - 1] &&
        memcmp(n->name, name, length) == 0;
}

/* A child stands soon behind its directory, as a rule: the search begins there and goes round. */
static uint32_t find_child(const struct plain_guard *g, uint32_t directory, const uint8_t *name, size_t length)
{
    uint32_t parent = g->node[directory].id;
    for (uint32_t i = directory + 1; i < g->nodes; i++)
        if (is_child(g->node + i, parent, name, length))
            return i;
    for (uint32_t i = 0; i <= directory; i++)
        if (is_child(g->node + i, parent, name, length))
            return i;
    return g->nodes;
}

static bool has_child(const struct plain_guard *g, uint32_t parent)
{
    for (uint32_t i = 0; i < g->nodes; i++)
        if (g->node[i].parent == parent)
            return true;
    return false;
}

static struct open_file *find_open(struct plain_guard *g, uint32_t handle)
{
    for (uint32_t i = 0; i < g->opens; i++)
        if (g->open[i].handle == handle)
            return g->open + i;
    return NULL;
}

/* Sets a file's size: its digests are made more or fewer, and those behind them move. */
static void resize(struct plain_guard *g, uint32_t k, uint32_t size)
{
    struct node *n = g->node + k;
    uint32_t before = pages_for(n->size), after = pages_for(size), behind = n->first + before;
    n->size = size;
    if (before == after)
        return;
    memmove(g->digest[n->first + after], g->digest[behind], (size_t)DIGEST * (g->pages - behind));
    g->pages += after - before;
    for (uint32_t i = k + 1; i < g->nodes; i++)
        g->node[i].first = (uint16_t)(g->node[i].first + after - before);
}

static void remove_node(struct plain_guard *g, uint32_t k)
{
    resize(g, k, 0);
    g->nodes--;
    memmove(g->node + k, g->node + k + 1, (g->nodes - k) * sizeof *g->node);
    for (uint32_t i = 0; i < g->opens; i++)
        if (g->open[i].node > k)
            g->open[i].node--;
}

/* ---- paths */

/* 22, 36, or 0 where a path's form is right. */
static unsigned path_fault(const uint8_t *path, size_t length)
{
    bool is_long = length > PATH;
    if (length == 0 || path[0] != '/')
        return 22;
    for (size_t at = 1; length > 1;) {
        size_t end = at;
        while (end < length && path[end] != '/' && path[end] != 0)
            end++;
        size_t n = end - at;
        if (n == 0 || (end < length && path[end] == 0) ||
            (path[at] == '.' && (n == 1 || (n == 2 && path[at + 1] == '.'))))
            return 22;
        is_long |= n > NAME;
        if (end == length)
            break;
        at = end + 1;
    }
    return is_long ? 36 : 0;
}

/* Where a walk led: the last component, the directory that it is looked up in, and its node, or `nodes` where there is
 * none. */
struct way { unsigned fault; uint32_t parent, node; const uint8_t *name; size_t length; };

static struct way walk(const struct plain_guard *g, const uint8_t *path, size_t length)
{
    struct way w = {0, 0, 0, path, 0};
    for (size_t at = 1; at < length;) {
        const struct node *d = g->node + w.node;
        size_t end = at;
        if (w.node == g->nodes)
            return (struct way){.fault = 2};
        if (d->kind != IS_DIRECTORY)
            return (struct way){.fault = 20};
        if (!(d->mode & MODE_SEARCH))
            return (struct way){.fault = 13};
        while (end < length && path[end] != '/')
            end++;
        w = (struct way){0, w.node, find_child(g, w.node, path + at, end - at), path + at, end - at};
        at = end + 1;
    }
    return w;
}

/* ---- calls by path */

static unsigned create_fault(const struct plain_guard *g, const struct way *w)
{
    if (w->node < g->nodes)
        return 17;
    if (!(g->node[w->parent].mode & MODE_WRITE))
        return 13;
    return g->nodes == NODES ? 28 : 0;
}

static unsigned open_fault(struct plain_guard *g, const struct node *n, unsigned rights)
{
    if (n->kind == IS_DIRECTORY)
        return 21;
    if (((rights & RIGHT_READ) && !(n->mode & MODE_READ)) || ((rights & RIGHT_WRITE) && !(n->mode & MODE_WRITE)))
        return 13;
    if (find_open(g, n->id))
        return 16;
    return g->opens == OPEN_FILES ? 24 : 0;
}

static unsigned remove_fault(struct plain_guard *g, const struct way *w)
{
    const struct node *n = g->node + w->node;
    if (n->kind == IS_DIRECTORY)
        return 21;
    if (!(g->node[w->parent].mode & MODE_WRITE))
        return 13;
    return find_open(g, n->id) ? 16 : 0;
}

static unsigned rmdir_fault(const struct plain_guard *g, const struct way *w)
{
    const struct node *n = g->node + w->node;
    if (w->node == 0)
        return 16;
    if (n->kind != IS_DIRECTORY)
        return 20;
    if (!(g->node[w->parent].mode & MODE_WRITE))
        return 13;
    return has_child(g, n->id) ? 39 : 0;
}

static unsigned readdir_fault(const struct node *n)
{
    if (n->kind != IS_DIRECTORY)
        return 20;
    return n->mode & MODE_READ ? 0 : 13;
}

static unsigned way_fault(struct plain_guard *g, const struct way *w, unsigned kind, unsigned number)
{
    if (w->fault)
        return w->fault;
    if (kind == CREATE || kind == MKDIR)
        return create_fault(g, w);
    if (w->node == g->nodes)
        return 2;
    switch (kind) {
    case OPEN: return open_fault(g, g->node + w->node, number);
    case REMOVE: return remove_fault(g, w);
    case RMDIR: return rmdir_fault(g, w);
    case READDIR: return readdir_fault(g->node + w->node);
    default: return 0;
    }
}

static outcome call_by_path(struct plain_guard *g, const uint8_t *call, size_t n, size_t front, uint8_t *request)
{
    unsigned kind = call[0], number = front == 2 ? call[1] : 0;
    unsigned fault = path_fault(call + front, n - front);
    if (fault)
        return refused(fault);
    struct way w = walk(g, call + front, n - front);
    fault = way_fault(g, &w, kind, number);
    if (fault)
        return refused(fault);
    g->pending = (struct pending){.call = (uint8_t)kind, .number = (uint8_t)number, .node = (uint16_t)w.node};
    if (kind == CREATE || kind == MKDIR) {
        g->pending.node = (uint16_t)w.parent;
        g->pending.length = (uint8_t)w.length;
        memcpy(g->data, w.name, w.length);
    }
    memcpy(request, call, n);
    return ask(n);
}

/* ---- renames */

/* 22, 36, or 0 where the form of both paths is right. */
static unsigned rename_form(const uint8_t *call, size_t n)
{
    if (n < 2 || call[1] > n - 2)
        return 22;
    unsigned first = path_fault(call + 2, call[1]), second = path_fault(call + 2 + call[1], n - 2 - call[1]);
    return first == 22 || second == 22 ? 22 : larger(first, second);
}

static bool is_at_or_beneath(const struct plain_guard *g, uint32_t k, uint32_t top)
{
    while (k != top && k != 0)
        k = find_id(g, g->node[k].parent);
    return k == top;
}

/* How much longer the longest path beneath a node is than its own: its directories in turn, each with its children. */
static uint32_t length_beneath(const struct plain_guard *g, uint32_t top)
{
    uint8_t place[NODES] = {(uint8_t)top}, length[NODES] = {0};
    uint32_t longest = 0, count = 1;
    for (uint32_t at = 0; at < count; at++) {
        const struct node *d = g->node + place[at];
        for (uint32_t i = 0; d->kind == IS_DIRECTORY && i < g->nodes; i++)
            if (g->node[i].parent == d->id) {
                place[count] = (uint8_t)i;
                length[count] = (uint8_t)(length[at] + 1 + g->node[i].length);
                longest = larger(longest, length[count++]);
            }
    }
    return longest;
}

/* What is wrong once both walks are done, and the two ways lead to different nodes; `length` is the second path's. */
static unsigned rename_fault(const struct plain_guard *g, const struct way *from, const struct way *to, size_t length)
{
    if (to->node < g->nodes)
        return 17;
    if (is_at_or_beneath(g, to->parent, from->node))
        return 22;
    if (!(g->node[from->parent].mode & g->node[to->parent].mode & MODE_WRITE))
        return 13;
    return length + length_beneath(g, from->node) > PATH ? 36 : 0;
}

static outcome call_rename(struct plain_guard *g, const uint8_t *call, size_t n, uint8_t *request)
{
    unsigned fault = rename_form(call, n);
    if (fault)
        return refused(fault);
    size_t length = n - 2 - call[1];
    struct way from = walk(g, call + 2, call[1]), to = walk(g, call + 2 + call[1], length);
    if (from.fault || from.node == g->nodes)
        return refused(from.fault ? from.fault : 2);
    if (to.fault || from.node == 0)
        return refused(to.fault ? to.fault : 16);
    if (from.node == to.node)
        return done(0, 0);
    fault = rename_fault(g, &from, &to, length);
    if (fault)
        return refused(fault);
    g->pending = (struct pending){.call = RENAME, .length = (uint8_t)to.length, .node = (uint16_t)from.node,
        .parent = (uint16_t)to.parent};
    memcpy(g->data, to.name, to.length);
    memcpy(request, call, n);
    return ask(n);
}

static void move_node(struct plain_guard *g, const struct pending *p)
{
    struct node *k = g->node + p->node;
    k->parent = g->node[p->parent].id;
    k->length = p->length;
    memcpy(k->name, g->data, p->length);
}

/* ---- requests of pages */

static outcome ask_fetch(struct plain_guard *g, unsigned call, uint32_t page, uint8_t *request)
{
    g->pending.call = (uint8_t)call;
    g->pending.page = page;
    request[0] = READ;
    put4(put4(request + 1, g->open[g->pending.opened].descriptor), page);
    return ask(9);
}

/* A page goes out: of the one fetched, or of zeros where there is none, with `n` bytes of data from `from` on. */
static outcome ask_store(struct plain_guard *g, unsigned call, uint32_t size, const uint8_t *fetched, uint32_t from,
    const uint8_t *data,
                         uint32_t n, uint8_t *request)
{
    struct pending *p = &g->pending;
    uint8_t *page;
    p->call = (uint8_t)call;
    request[0] = WRITE;
    page = put4(put4(put4(request + 1, g->open[p->opened].descriptor), p->page), size);
    if (fetched)
        memcpy(page, fetched, from);
    memcpy(page + from, data, n);
    if (fetched)
        memcpy(page + from + n, fetched + from + n, PAGE - from - n);
    else
        memset(page + from + n, 0, PAGE - from - n);
    HASH(page, PAGE, g->staged[p->digests++]);
    return ask(REQUEST);
}

static outcome store_written(struct plain_guard *g, const uint8_t *fetched, uint8_t *request)
{
    struct pending *p = &g->pending;
    uint32_t start = p->page * PAGE, from = larger(p->position, start), to = smaller(p->end, start + PAGE);
    uint32_t size = larger(g->node[p->node].size, to);
    return ask_store(g, WRITE_STORE, size, fetched, from - start, g->data + (from - p->position), to - from, request);
}

/* The write goes on at a page, which is fetched first where a byte of it below the old end stays. */
static outcome write_page(struct plain_guard *g, uint32_t page, uint8_t *request)
{
    const struct pending *p = &g->pending;
    uint32_t start = page * PAGE, size = g->node[p->node].size;
    if (start < size && (start < p->position || p->end < smaller(size, start + PAGE)))
        return ask_fetch(g, WRITE_FETCH, page, request);
    g->pending.page = page;
    return store_written(g, NULL, request);
}

static outcome ask_cut(struct plain_guard *g, uint8_t *request)
{
    g->pending.call = CUT;
    request[0] = TRUNCATE;
    put4(put4(request + 1, g->open[g->pending.opened].descriptor), g->pending.end);
    return ask(9);
}

/* ---- calls by handle */

static struct pending pending_on(const struct plain_guard *g, const struct open_file *o, unsigned call)
{
    return (struct pending){.call = (uint8_t)call, .node = o->node, .opened = (uint16_t)(o - g->open)};
}

static outcome call_close(struct plain_guard *g, struct open_file *o, uint8_t *request)
{
    g->pending = pending_on(g, o, CLOSE);
    request[0] = CLOSE;
    put4(request + 1, o->descriptor);
    return ask(5);
}

static outcome call_seek(struct plain_guard *g, struct open_file *o, uint64_t position)
{
    if (position > g->node[o->node].size)
        return refused(22);
    o->cursor = (uint32_t)position;
    return done(position, 0);
}

static outcome call_read(struct plain_guard *g, struct open_file *o, uint32_t count, uint8_t *request)
{
    uint32_t left = smaller(count, g->node[o->node].size - o->cursor);
    if (!(o->rights & RIGHT_READ))
        return refused(9);
    if (left == 0)
        return done(0, 0);
    g->pending = pending_on(g, o, READ);
    g->pending.position = o->cursor;
    g->pending.end = o->cursor + left;
    return ask_fetch(g, READ, o->cursor / PAGE, request);
}

static outcome call_write(struct plain_guard *g, struct open_file *o, const uint8_t *data, uint32_t n, uint8_t *request)
{
    uint32_t size = g->node[o->node].size, end = o->cursor + n;
    if (!(o->rights & RIGHT_WRITE))
        return refused(9);
    if (end > FILE_BYTES)
        return refused(27);
    if (g->pages - pages_for(size) + pages_for(larger(size, end)) > PAGES)
        return refused(28);
    if (n == 0)
        return done(0, 0);
    memcpy(g->data, data, n);
    g->pending = pending_on(g, o, WRITE);
    g->pending.position = o->cursor;
    g->pending.end = end;
    return write_page(g, o->cursor / PAGE, request);
}

static outcome call_truncate(struct plain_guard *g, struct open_file *o, uint64_t size, uint8_t *request)
{
    uint32_t before = g->node[o->node].size;
    if (!(o->rights & RIGHT_WRITE))
        return refused(9);
    if (size > FILE_BYTES)
        return refused(27);
    if (g->pages - pages_for(before) + pages_for((uint32_t)size) > PAGES)
        return refused(28);
    if (size == before)
        return done(0, 0);
    g->pending = pending_on(g, o, TRUNCATE);
    g->pending.end = (uint32_t)size;
    if (size < before && size % PAGE)
        return ask_fetch(g, CUT_FETCH, (uint32_t)size / PAGE, request);
    return ask_cut(g, request);
}

/* Whether a call by handle has exactly its fields, each within its limit. */
static bool handle_form(const uint8_t *call, size_t n)
{
    switch (call[0]) {
    case CLOSE: return n == 5;
    case READ: return n == 9 && get4(call + 5) <= DATA;
    case WRITE: return n >= 5 && n - 5 <= DATA;
    default: return n == 13;
    }
}

static outcome call_by_handle(struct plain_guard *g, const uint8_t *call, size_t n, uint8_t *request)
{
    struct open_file *o;
    if (!handle_form(call, n))
        return refused(22);
    o = find_open(g, get4(call + 1));
    if (!o)
        return refused(9);
    switch (call[0]) {
    case CLOSE: return call_close(g, o, request);
    case SEEK: return call_seek(g, o, get8(call + 5));
    case READ: return call_read(g, o, get4(call + 5), request);
    case WRITE: return call_write(g, o, call + 5, (uint32_t)(n - 5), request);
    default: return call_truncate(g, o, get8(call + 5), request);
    }
}

/* ---- maps */

static uint32_t find_map(const struct plain_guard *g, uint64_t address)
{
    uint32_t i = 0;
    while (i < g->maps && g->map[i].address != address)
        i++;
    return i;
}

/* Last bytes are compared, which fit in 64 bits where a map ends at 2^64. */
static bool overlaps_map(const struct plain_guard *g, uint64_t address, uint32_t length)
{
    uint64_t last = address + (length - 1);
    for (const struct map *m = g->map; m < g->map + g->maps; m++)
        if (address <= m->address + (m->length - 1) && m->address <= last)
            return true;
    return false;
}

/* Units of zeros: a unit has words enough for the compiler to take several at a time. */
static bool is_zero(const uint8_t *p, uint32_t n)
{
    for (const uint8_t *end = p + n; p < end; p += UNIT) {
        uint64_t bits = 0, word;
        for (uint32_t i = 0; i < UNIT; i += sizeof word) {
            memcpy(&word, p + i, sizeof word);
            bits |= word;
        }
        if (bits)
            return false;
    }
    return true;
}

/* 22, or 0 where the form is right. */
static unsigned map_fault(const uint8_t *call, size_t n)
{
    uint32_t length = n == 5 ? get4(call + 1) : 0;
    return length == 0 || length > MAP_BYTES || length % UNIT ? 22 : 0;
}

static outcome call_map(struct plain_guard *g, const uint8_t *call, size_t n, uint8_t *request)
{
    if (map_fault(call, n))
        return refused(22);
    if (g->maps == MAPS)
        return refused(12);
    g->pending = (struct pending){.call = MAP, .bytes = get4(call + 1)};
    memcpy(request, call, n);
    return ask(n);
}

static outcome call_unmap(struct plain_guard *g, const uint8_t *call, size_t n, uint8_t *request)
{
    uint32_t k = n == 9 ? find_map(g, get8(call + 1)) : g->maps;
    if (k == g->maps)
        return refused(22);
    g->pending = (struct pending){.call = UNMAP, .node = (uint16_t)k};
    memcpy(request, call, n);
    return ask(n);
}

/* ---- all calls */

static unsigned call_fault(const struct plain_guard *g, size_t a, size_t q)
{
    if (!g->running)
        return 5;
    if (g->pending.call != IDLE)
        return 114;
    return a < ANSWER || q < REQUEST ? 34 : 0;
}

/* Within both entries: bench/run counts from an entry on, and neither may pass through the other. */
static inline __attribute__((always_inline)) outcome take_call(struct plain_guard *g, const uint8_t *call, size_t n,
    size_t a, uint8_t *request, size_t q)
{
    unsigned fault = call_fault(g, a, q);
    if (fault)
        return refused(fault);
    if (n == 0)
        return refused(22);
    switch (call[0]) {
    case CREATE: case MKDIR: case CHMOD:
        return n > 1 && call[1] <= 7 ? call_by_path(g, call, n, 2, request) : refused(22);
    case OPEN:
        return n > 1 && call[1] >= 1 && call[1] <= 3 ? call_by_path(g, call, n, 2, request) : refused(22);
    case REMOVE: case RMDIR: case READDIR: case STAT:
        return call_by_path(g, call, n, 1, request);
    case CLOSE: case SEEK: case READ: case WRITE: case TRUNCATE:
        return call_by_handle(g, call, n, request);
    case MAP: return call_map(g, call, n, request);
    case UNMAP: return call_unmap(g, call, n, request);
    case RENAME: return call_rename(g, call, n, request);
    default:
        return refused(22);
    }
}

outcome plain_call(struct plain_guard *g, const uint8_t *call, size_t n, uint8_t *answer, size_t a, uint8_t *request,
    size_t q)
{
    (void)answer;
    return take_call(g, call, n, a, request, q);
}

/* ---- the read-only guard */

static bool is_read_only(const uint8_t *call, size_t n)
{
    switch (n ? call[0] : 0) {
    case OPEN: return n > 1 && call[1] == RIGHT_READ;
    case STAT: case READDIR: case READ: case SEEK: case CLOSE: return true;
    default: return false;
    }
}

/* 22, 36, or 0 where the form of a call that is no look is right. */
static unsigned form_fault(const uint8_t *call, size_t n)
{
    switch (n ? call[0] : 0) {
    case CREATE: case MKDIR: case CHMOD: return n > 1 && call[1] <= 7 ? path_fault(call + 2, n - 2) : 22;
    case OPEN: return n > 1 && (call[1] == 2 || call[1] == 3) ? path_fault(call + 2, n - 2) : 22;
    case REMOVE: case RMDIR: return path_fault(call + 1, n - 1);
    case WRITE: case TRUNCATE: return handle_form(call, n) ? 0 : 22;
    case MAP: return map_fault(call, n);
    case UNMAP: return n == 9 ? 0 : 22;
    case RENAME: return rename_form(call, n);
    default: return 22;
    }
}

outcome plain_reader_call(struct plain_guard *g, const uint8_t *call, size_t n, uint8_t *answer, size_t a,
    uint8_t *request, size_t q)
{
    (void)answer;
    if (is_read_only(call, n))
        return take_call(g, call, n, a, request, q);
    unsigned early = call_fault(g, a, q), form = form_fault(call, n);
    return refused(early ? early : form ? form : READ_ONLY);
}

/* ---- replies */

static outcome stop(struct plain_guard *g, unsigned reason)
{
    g->running = 0;
    g->pending.call = IDLE;
    return (outcome){STOPPED, reason, 0};
}

static outcome finish(struct plain_guard *g, uint64_t number, size_t length)
{
    g->pending.call = IDLE;
    return done(number, length);
}

/* A call that a full disk ends, where nothing of it is finished. */
static outcome end_full(struct plain_guard *g)
{
    g->pending.call = IDLE;
    return refused(28);
}

static bool is_full(const uint8_t *reply, size_t n) { return n == 4 && (int32_t)get4(reply) == NO_SPACE; }

static unsigned status_fault(const uint8_t *reply, size_t n, int32_t expected)
{
    if (n != 4)
        return 1;
    return (int32_t)get4(reply) == expected ? 0 : 2;
}

static bool has_digest(const uint8_t *message, size_t n, const uint8_t *digest)
{
    uint8_t own[DIGEST];
    HASH(message, n, own);
    return memcmp(own, digest, DIGEST) == 0;
}

static unsigned page_fault(const struct plain_guard *g, const uint8_t *reply, size_t n)
{
    if (n != PAGE)
        return 1;
    return has_digest(reply, PAGE, g->digest[g->node[g->pending.node].first + g->pending.page]) ? 0 : 5;
}

static outcome created(struct plain_guard *g, const uint8_t *reply, size_t n)
{
    const struct pending *p = &g->pending;
    struct node *new = g->node + g->nodes;
    if (is_full(reply, n))
        return end_full(g);
    if (n != 4)
        return stop(g, 1);
    uint32_t id = get4(reply);
    if (id == 0 || find_id(g, id) < g->nodes)
        return stop(g, 3);
    *new = (struct node){id, g->node[p->node].id, 0, (uint16_t)g->pages, p->call, p->number, p->length, {0}};
    memcpy(new->name, g->data, p->length);
    g->nodes++;
    return finish(g, id, 0);
}

static outcome opened(struct plain_guard *g, const uint8_t *reply, size_t n)
{
    if (n != 4)
        return stop(g, 1);
    uint32_t descriptor = get4(reply), handle = g->node[g->pending.node].id;
    if (descriptor >= DESCRIPTORS)
        return stop(g, 4);
    for (uint32_t i = 0; i < g->opens; i++)
        if (g->open[i].descriptor == descriptor)
            return stop(g, 4);
    g->open[g->opens++] = (struct open_file){handle, descriptor, 0, g->pending.node, g->pending.number};
    return finish(g, handle, 0);
}

static outcome mapped(struct plain_guard *g, const uint8_t *reply, size_t n)
{
    uint32_t length = g->pending.bytes;
    if (n != (size_t)ADDRESS + length)
        return stop(g, 1);
    uint64_t address = get8(reply);
    if (address == 0 || address % UNIT || address > UINT64_MAX - (length - 1) || overlaps_map(g, address, length) ||
        !is_zero(reply + ADDRESS, length))
        return stop(g, 8);
    g->map[g->maps++] = (struct map){address, length};
    return finish(g, address, 0);
}

/* close, remove, rmdir, chmod, unmap and rename. */
static outcome told(struct plain_guard *g, const uint8_t *reply, size_t n)
{
    const struct pending *p = &g->pending;
    unsigned fault = status_fault(reply, n, 0);
    if (fault)
        return stop(g, fault);
    if (p->call == CLOSE)
        g->open[p->opened] = g->open[--g->opens];
    else if (p->call == CHMOD)
        g->node[p->node].mode = p->number;
    else if (p->call == UNMAP)
        g->map[p->node] = g->map[--g->maps];
    else if (p->call == RENAME)
        move_node(g, p);
    else
        remove_node(g, p->node);
    return finish(g, 0, 0);
}

/* Places by id: for each hash the last place with it, for each place the one before it with the same hash; and how far they are made. */
struct places { uint8_t last[NODES], before[NODES], step; };

static uint8_t hash_of(uint32_t id) { return (uint8_t)(id * 2654435769u >> 24); }

static void list_places(const struct plain_guard *g, struct places *p)
{
    for (uint32_t k = 0; k < g->nodes; k++) {
        uint8_t *last = p->last + hash_of(g->node[k].id);
        p->before[k] = *last;
        *last = (uint8_t)k;
    }
    p->step = 2;
}

static uint32_t find_listed(const struct plain_guard *g, uint32_t id, struct places *p)
{
    if (p->step == 0) {
        p->step = 1; /* one id alone is searched */
        return find_id(g, id);
    }
    if (p->step == 1)
        list_places(g, p);
    uint32_t k = p->last[hash_of(id)];
    while (g->node[k].id != id) {
        if (k <= p->before[k])
            return g->nodes;
        k = p->before[k];
    }
    return k;
}

/* The children that a listing names, or -1 where it is not each child once. */
static int listed(const struct plain_guard *g, uint32_t directory, const uint8_t *reply, size_t n)
{
    uint8_t seen[NODES] = {0};
    struct places places = {0};
    int count = 0, children = 0;
    uint32_t k = NODES; /* behind the last entry's node stands the next one's, where they are listed in their order */
    for (size_t at = 0; at < n; count++) {
        const uint8_t *entry = reply + at;
        if (n - at < 6 || n - at - 6 < entry[5])
            return -1;
        uint32_t id = get4(entry);
        k = k + 1 < g->nodes && g->node[k + 1].id == id ? k + 1 : find_listed(g, id, &places);
        const struct node *child = g->node + k;
        if (k == g->nodes || seen[k] || child->parent != directory || child->kind != entry[4] ||
            child->length != entry[5] ||
            memcmp(child->name, entry + 6, entry[5]))
            return -1;
        seen[k] = 1;
        at += 6u + entry[5];
    }
    for (uint32_t i = 0; i < g->nodes; i++)
        children += g->node[i].parent == directory;
    return count == children ? count : -1;
}

static outcome told_listing(struct plain_guard *g, const uint8_t *reply, size_t n, uint8_t *answer)
{
    int count = listed(g, g->node[g->pending.node].id, reply, n);
    if (count < 0)
        return stop(g, 7);
    memcpy(answer, reply, n);
    return finish(g, (uint64_t)count, n);
}

static outcome told_stat(struct plain_guard *g, const uint8_t *reply, size_t n, uint8_t *answer)
{
    const struct node *k = g->node + g->pending.node;
    if (n != 10)
        return stop(g, 1);
    if (get4(reply) != k->id || reply[4] != k->kind || reply[5] != k->mode || get4(reply + 6) != k->size)
        return stop(g, 6);
    memcpy(answer, reply, n);
    return finish(g, k->size, n);
}

/* A page of a read: its bytes are gathered, or go to the answer behind those gathered where it is the last. */
static outcome fetched_read(struct plain_guard *g, const uint8_t *reply, size_t n, uint8_t *answer, uint8_t *request)
{
    struct pending *p = &g->pending;
    unsigned fault = page_fault(g, reply, n);
    if (fault)
        return stop(g, fault);
    uint32_t start = p->page * PAGE, from = larger(p->position, start), to = smaller(p->end, start + PAGE);
    if (to < p->end) {
        memcpy(g->data + p->bytes, reply + (from - start), to - from);
        p->bytes += to - from;
        return ask_fetch(g, READ, p->page + 1, request);
    }
    memcpy(answer, g->data, p->bytes);
    memcpy(answer + p->bytes, reply + (from - start), to - from);
    g->open[p->opened].cursor = p->end;
    return finish(g, p->end - p->position, p->end - p->position);
}

static outcome fetched_write(struct plain_guard *g, const uint8_t *reply, size_t n, uint8_t *request)
{
    unsigned fault = page_fault(g, reply, n);
    return fault ? stop(g, fault) : store_written(g, reply, request);
}

/* A write is done up to `end`: all of it, or the pages that are finished. */
static outcome end_write(struct plain_guard *g, uint32_t end, uint32_t digests)
{
    const struct pending *p = &g->pending;
    struct node *k = g->node + p->node;
    resize(g, p->node, larger(k->size, end));
    memcpy(g->digest[k->first + p->position / PAGE], g->staged, (size_t)DIGEST * digests);
    g->open[p->opened].cursor = end;
    return finish(g, end - p->position, 0);
}

static outcome stored_write(struct plain_guard *g, const uint8_t *reply, size_t n, uint8_t *request)
{
    const struct pending *p = &g->pending;
    if (is_full(reply, n)) /* the last digest staged is that of the page that found no room */
        return p->digests == 1 ? end_full(g) : end_write(g, p->page * PAGE, p->digests - 1u);
    unsigned fault = status_fault(reply, n, PAGE);
    if (fault)
        return stop(g, fault);
    if ((p->page + 1) * PAGE < p->end)
        return write_page(g, p->page + 1, request);
    return end_write(g, p->end, p->digests);
}

static const uint8_t zeros[PAGE];

static outcome fetched_cut(struct plain_guard *g, const uint8_t *reply, size_t n, uint8_t *request)
{
    uint32_t from = g->pending.end % PAGE;
    unsigned fault = page_fault(g, reply, n);
    return fault ? stop(g, fault)
        : ask_store(g, CUT_STORE, g->node[g->pending.node].size, reply, from, zeros, PAGE - from, request);
}

static outcome stored_cut(struct plain_guard *g, const uint8_t *reply, size_t n, uint8_t *request)
{
    unsigned fault = status_fault(reply, n, PAGE);
    return fault ? stop(g, fault) : ask_cut(g, request);
}

/* The SHA-256 of a page of zeros. */
static const uint8_t zeros_digest[DIGEST] = {
    0x5f, 0x70, 0xbf, 0x18, 0xa0, 0x86, 0x00, 0x70, 0x16, 0xe9, 0x48, 0xb0, 0x4a, 0xed, 0x3b, 0x82,
    0x10, 0x3a, 0x36, 0xbe, 0xa4, 0x17, 0x55, 0xb6, 0xcd, 0xdf, 0xaf, 0x10, 0xac, 0xe3, 0xc6, 0xef,
};

static outcome cut(struct plain_guard *g, const uint8_t *reply, size_t n)
{
    const struct pending *p = &g->pending;
    struct open_file *o = g->open + p->opened;
    uint32_t size = g->node[p->node].size, first = g->node[p->node].first, before = pages_for(size);
    if (p->end > size && is_full(reply, n))
        return end_full(g);
    unsigned fault = status_fault(reply, n, 0);
    if (fault)
        return stop(g, fault);
    resize(g, p->node, p->end);
    memcpy(g->digest[first + p->end / PAGE], g->staged, (size_t)DIGEST * p->digests);
    for (uint32_t page = before; page < pages_for(p->end); page++)
        memcpy(g->digest[first + page], zeros_digest, DIGEST);
    o->cursor = smaller(o->cursor, p->end);
    return finish(g, 0, 0);
}

outcome plain_reply(struct plain_guard *g, const uint8_t *reply, size_t n, uint8_t *answer, size_t a, uint8_t *request,
    size_t q)
{
    if (!g->running)
        return refused(5);
    if (g->pending.call == IDLE)
        return refused(61);
    if (a < ANSWER || q < REQUEST)
        return refused(34);
    switch (g->pending.call) {
    case CREATE: case MKDIR: return created(g, reply, n);
    case OPEN: return opened(g, reply, n);
    case READDIR: return told_listing(g, reply, n, answer);
    case STAT: return told_stat(g, reply, n, answer);
    case MAP: return mapped(g, reply, n);
    case READ: return fetched_read(g, reply, n, answer, request);
    case WRITE_FETCH: return fetched_write(g, reply, n, request);
    case WRITE_STORE: return stored_write(g, reply, n, request);
    case CUT_FETCH: return fetched_cut(g, reply, n, request);
    case CUT_STORE: return stored_cut(g, reply, n, request);
    case CUT: return cut(g, reply, n);
    default: return told(g, reply, n);
    }
}

/* ---- saves and loads */

enum { RECORD = 15 }; /* a node's record without its name */

outcome plain_fresh(struct plain_guard *g)
{
    g->nodes = 1;
    g->opens = g->pages = g->maps = 0;
    g->running = 1;
    g->pending.call = IDLE;
    g->node[0] = (struct node){.id = 1, .kind = IS_DIRECTORY, .mode = 7};
    return done(0, 0);
}

static unsigned early_fault(const struct plain_guard *g)
{
    if (!g->running)
        return 5;
    if (g->pending.call != IDLE)
        return 114;
    return g->opens ? 16 : 0;
}

static size_t image_length(const struct plain_guard *g)
{
    size_t n = 8 + g->nodes * RECORD + g->pages * DIGEST;
    for (uint32_t i = 0; i < g->nodes; i++)
        n += g->node[i].length;
    return n;
}

outcome plain_save(struct plain_guard *g, uint8_t *image, size_t n, uint8_t digest[DIGEST])
{
    unsigned fault = early_fault(g);
    uint8_t *p = image;
    if (fault)
        return refused(fault);
    if (n < image_length(g))
        return refused(34);
    p = put4(p, g->nodes);
    for (const struct node *k = g->node; k < g->node + g->nodes; k++) {
        p = put4(put4(p, k->id), k->parent);
        *p++ = k->kind;
        *p++ = k->mode;
        p = put4(p, k->size);
        *p++ = k->length;
        memcpy(p, k->name, k->length);
        p += k->length;
    }
    p = put4(p, g->pages);
    memcpy(p, g->digest, (size_t)DIGEST * g->pages);
    p += (size_t)DIGEST * g->pages;
    HASH(image, (size_t)(p - image), digest);
    return done((uint64_t)(p - image), (size_t)(p - image));
}

/* The record at the front of n bytes as a node, with its name; the record's length, or 0 where the bytes end before
 * that. */
static size_t read_record(const uint8_t *p, size_t n, struct node *k)
{
    if (n < RECORD || n - RECORD < p[14])
        return 0;
    *k = (struct node){
        .id = get4(p), .parent = get4(p + 4), .kind = p[8], .mode = p[9], .size = get4(p + 10), .length = p[14],
    };
    memcpy(k->name, p + RECORD, k->length <= NAME ? k->length : 0);
    return (size_t)RECORD + p[14];
}

static bool in_limits(const struct node *k)
{
    return k->id != 0 && k->mode <= 7 &&
        ((k->kind == IS_FILE && k->size <= FILE_BYTES) || (k->kind == IS_DIRECTORY && k->size == 0));
}

static bool is_name(const uint8_t *name, size_t n)
{
    if (n == 0 || n > NAME || (name[0] == '.' && (n == 1 || (n == 2 && name[1] == '.'))))
        return false;
    return !memchr(name, 0, n) && !memchr(name, '/', n);
}

/* Whether node i may stand behind those before it. Where its parent is among them, or a child, the parent's place
 * is noted. */
static bool may_follow(const struct node *node, uint32_t i, uint8_t *parent)
{
    const struct node *k = node + i;
    if (!in_limits(k) || !is_name(k->name, k->length))
        return false;
    for (uint32_t j = 0; j < i; j++) {
        if (node[j].id == k->id)
            return false;
        if (node[j].id == k->parent)
            parent[i] = (uint8_t)j;
        if (node[j].parent == k->id)
            parent[j] = (uint8_t)i;
        if (node[j].parent == k->parent && node[j].length == k->length && memcmp(node[j].name, k->name, k->length) == 0)
            return false;
    }
    return true;
}

/* Whether each node reaches the root by its parents, which are directories, on a path that is not too long. Each goes
 * up to one whose path is known; a way longer than there are nodes goes round. */
static bool all_reach_root(const struct node *node, uint32_t count, const uint8_t *parent)
{
    uint8_t length[NODES] = {0}, known[NODES] = {1}, way[NODES];
    for (uint32_t i = 1; i < count; i++) {
        uint32_t k = i, n = 0;
        for (; !known[k]; k = parent[k]) {
            if (n == count)
                return false;
            way[n++] = (uint8_t)k;
        }
        for (; n > 0; k = way[n]) {
            uint32_t path = length[k] + 1u + node[way[--n]].length;
            if (node[k].kind != IS_DIRECTORY || path > PATH)
                return false;
            length[way[n]] = (uint8_t)path;
            known[way[n]] = 1;
        }
    }
    return true;
}

static bool is_root(const struct node *k)
{
    return k->id == 1 && k->parent == 0 && k->kind == IS_DIRECTORY && k->length == 0 && in_limits(k);
}

/* The nodes of a sound image; the place behind their records, or 0 where they are not sound. */
static size_t read_nodes(const uint8_t *image, size_t n, struct node *node, uint32_t count, uint32_t *pages)
{
    uint8_t parent[NODES];
    size_t at = 4;
    *pages = 0;
    for (uint32_t i = 0; i < count; i++) {
        size_t length = read_record(image + at, n - at, node + i);
        parent[i] = (uint8_t)i; /* its own: none is found yet */
        if (length == 0 || !(i == 0 ? is_root(node) : may_follow(node, i, parent)))
            return 0;
        at += length;
        node[i].first = (uint16_t)*pages;
        *pages += pages_for(node[i].size);
    }
    return all_reach_root(node, count, parent) ? at : 0;
}

outcome plain_load(struct plain_guard *g, const uint8_t *image, size_t n, const uint8_t *digest, size_t d)
{
    struct node node[NODES];
    uint32_t count, pages;
    unsigned fault = early_fault(g);
    if (fault)
        return refused(fault);
    if (d != DIGEST || !has_digest(image, n, digest))
        return refused(74);
    if (n < 4 || (count = get4(image)) < 1 || count > NODES)
        return refused(84);
    size_t at = read_nodes(image, n, node, count, &pages);
    if (at == 0 || pages > PAGES || n - at < 4 || get4(image + at) != pages || n - at - 4 != (size_t)DIGEST * pages)
        return refused(84);
    memcpy(g->node, node, count * sizeof *node);
    memcpy(g->digest, image + at + 4, (size_t)DIGEST * pages);
    g->nodes = count;
    g->pages = pages;
    return done(0, 0);
}
