#include "host.h"
#include "guard.h"

#include <string.h>

/* where the page stands in a store, and how long a node without its name is in an image */
enum { STORED_AT = GUARD_REQUEST_LENGTH - GUARD_PAGE_LENGTH, RECORD = 2 * GUARD_ID_LENGTH + 7 };
enum { KEPT = GUARD_PAGES, NO_DESCRIPTOR = GUARD_DESCRIPTORS };

struct node {
    uint8_t path[GUARD_PATH_LENGTH];
    size_t length; /* of the path; the root's is 0 */
    uint32_t id, parent, size, descriptor;
    uint8_t kind, mode, name_length;
};

struct tree {
    struct node nodes[GUARD_NODES];
    size_t count, stored; /* nodes, and pages in the log */
    int is_sure;
};

static struct tree tree, saved;
/* every page that was stored, the latest last; and that pages from `number` on are zeros, which stands where a file is
 * made or made shorter */
static struct { uint32_t id, number; int are_zeros; uint8_t page[GUARD_PAGE_LENGTH]; } pages[KEPT];
static uint32_t next_id;
/* maps, which no tree has: saves and loads leave them */
static struct { uint64_t address; uint32_t length; } maps[GUARD_MAPS];
static size_t mapped;

static uint32_t field(const uint8_t *at)
{
    return at[0] + 256u * at[1] + 65536u * at[2] + 16777216u * at[3];
}

static size_t put(uint32_t n, uint8_t *to)
{
    for (int i = 0; i < 4; i++)
        to[i] = (uint8_t)(n >> 8 * i);
    return 4;
}

static uint64_t long_field(const uint8_t *at)
{
    return field(at) + ((uint64_t)field(at + 4) << 32);
}

/* ---- nodes */

/* Null where there is none. */
static struct node *find(const uint8_t *path, size_t length)
{
    length = length == 1 ? 0 : length;
    for (size_t i = 0; i < tree.count; i++)
        if (tree.nodes[i].length == length && !memcmp(tree.nodes[i].path, path, length))
            return &tree.nodes[i];
    return NULL;
}

static struct node *by_path(const uint8_t *path, size_t length)
{
    struct node *n = find(path, length);
    return n ? n : tree.nodes;
}

static struct node *by_descriptor(uint32_t descriptor)
{
    for (size_t i = 0; i < tree.count; i++)
        if (tree.nodes[i].descriptor == descriptor)
            return &tree.nodes[i];
    return NULL;
}

static struct node *by_id(uint32_t id)
{
    for (size_t i = 0; i < tree.count; i++)
        if (tree.nodes[i].id == id)
            return &tree.nodes[i];
    return NULL;
}

static struct node *add(uint32_t id, uint8_t kind, uint8_t mode, const uint8_t *path, size_t length)
{
    size_t name = length;
    if (tree.count == GUARD_NODES)
        return tree.nodes;
    while (name > 0 && path[name - 1] != '/')
        name--;
    uint32_t parent = length ? by_path(path, name > 1 ? name - 1 : 1)->id : 0;
    struct node *n = &tree.nodes[tree.count++];
    *n = (struct node){{0}, length, id, parent, 0, NO_DESCRIPTOR, kind, mode, (uint8_t)(length - name)};
    memcpy(n->path, path, length);
    return n;
}

static void take_out(struct node *n)
{
    size_t behind = (size_t)(tree.nodes + tree.count - n) - 1;
    memmove(n, n + 1, behind * sizeof *n);
    tree.count--;
}

static void begin_tree(void)
{
    memset(&tree, 0, sizeof tree);
    saved = tree;
    tree.is_sure = 1;
    next_id = 2;
    add(1, GUARD_DIRECTORY, 7, (const uint8_t *)"", 0);
}

void host_begin(void)
{
    begin_tree();
    mapped = 0;
}

/* ---- renames */

/* Whether a node is at this path or beneath it. */
static int is_within(const struct node *n, const uint8_t *path, size_t length)
{
    return n->length >= length && !memcmp(n->path, path, length) && (n->length == length || n->path[length] == '/');
}

/* The number of a walk, and where it leads: the directory of the last component, and the node, null where it may be
 * absent and is. */
static unsigned walk(const uint8_t *path, size_t length, int may_be_absent, const struct node **parent,
    const struct node **node)
{
    *parent = NULL;
    *node = tree.nodes;
    for (size_t at = 1, end; at < length; at = end + 1) {
        if ((*node)->kind != GUARD_DIRECTORY)
            return GUARD_NOT_DIRECTORY;
        if (!((*node)->mode & 1))
            return GUARD_BARRED;
        for (end = at; end < length && path[end] != '/';)
            end++;
        *parent = *node;
        *node = find(path, end);
        if (!*node && !(may_be_absent && end == length))
            return GUARD_ABSENT;
    }
    return 0;
}

/* Whether a path at or beneath this one would be too long with another one in its place. */
static int is_too_long(const uint8_t *path, size_t length, size_t new_length)
{
    for (size_t i = 0; i < tree.count; i++)
        if (is_within(&tree.nodes[i], path, length) && tree.nodes[i].length - length + new_length > GUARD_PATH_LENGTH)
            return 1;
    return 0;
}

unsigned host_rename_number(const uint8_t *path, size_t length, const uint8_t *new_path, size_t new_length)
{
    const struct node *parent, *node, *new_parent, *there;
    unsigned number = walk(path, length, 0, &parent, &node);
    if (!number)
        number = walk(new_path, new_length, 1, &new_parent, &there);
    if (number)
        return number;
    if (!parent)
        return GUARD_IN_USE;
    if (there)
        return there == node ? 0 : GUARD_PRESENT;
    if (is_within(new_parent, path, length))
        return GUARD_MALFORMED;
    if (!(parent->mode & 2) || !(new_parent->mode & 2))
        return GUARD_BARRED;
    return is_too_long(path, length, new_length) ? GUARD_TOO_LONG : 0;
}

int host_is_own_path(const uint8_t *path, size_t length, const uint8_t *new_path, size_t new_length)
{
    return find(path, length) == find(new_path, new_length);
}

/* All that is beneath the node goes with it, and an open file stays open. */
static void rename_node(const uint8_t *path, size_t length, const uint8_t *new_path, size_t new_length)
{
    size_t name = new_length;
    while (new_path[name - 1] != '/')
        name--;
    uint32_t parent = by_path(new_path, name > 1 ? name - 1 : 1)->id;
    for (struct node *n = tree.nodes; n < tree.nodes + tree.count; n++) {
        if (!is_within(n, path, length))
            continue;
        if (n->length == length) {
            n->parent = parent;
            n->name_length = (uint8_t)(new_length - name);
        }
        memmove(n->path + new_length, n->path + length, n->length - length);
        memcpy(n->path, new_path, new_length);
        n->length += new_length - length;
    }
}

/* ---- maps */

static int is_free(uint64_t address, uint32_t length)
{
    for (size_t i = 0; i < mapped; i++)
        if (address <= maps[i].address + (maps[i].length - 1) && maps[i].address <= address + (length - 1))
            return 0;
    return 1;
}

/* From the end of the space down, where there is room. */
static size_t map(uint32_t length, uint8_t *reply)
{
    uint64_t address = -(uint64_t)length;
    while (!is_free(address, length))
        address -= GUARD_MAP_UNIT;
    put((uint32_t)address, reply);
    put((uint32_t)(address >> 32), reply + 4);
    memset(reply + GUARD_ADDRESS_LENGTH, 0, length);
    return GUARD_ADDRESS_LENGTH + length;
}

static void keep_map(uint64_t address, uint32_t length)
{
    if (mapped == GUARD_MAPS)
        return;
    maps[mapped].address = address;
    maps[mapped++].length = length;
}

static void end_map(uint64_t address)
{
    for (size_t i = 0; i < mapped; i++)
        if (maps[i].address == address) {
            maps[i] = maps[--mapped];
            return;
        }
}

/* ---- replies */

static uint32_t new_id(void)
{
    while (by_id(next_id))
        next_id++;
    return next_id;
}

static uint32_t new_descriptor(void)
{
    uint32_t descriptor = 0;
    while (by_descriptor(descriptor))
        descriptor++;
    return descriptor;
}

static size_t fetch(const struct node *n, uint32_t number, uint8_t *reply)
{
    size_t i = tree.stored < KEPT ? tree.stored : KEPT;
    memset(reply, 0, GUARD_PAGE_LENGTH);
    while (n && i-- > 0) {
        if (pages[i].id != n->id || (pages[i].are_zeros ? pages[i].number > number : pages[i].number != number))
            continue;
        if (!pages[i].are_zeros)
            memcpy(reply, pages[i].page, GUARD_PAGE_LENGTH);
        break;
    }
    return GUARD_PAGE_LENGTH;
}

static size_t list(const struct node *directory, uint8_t *reply)
{
    size_t at = 0;
    for (struct node *n = tree.nodes; n < tree.nodes + tree.count; n++) {
        if (n->parent != directory->id)
            continue;
        at += put(n->id, reply + at);
        reply[at++] = n->kind;
        reply[at++] = n->name_length;
        memcpy(reply + at, n->path + n->length - n->name_length, n->name_length);
        at += n->name_length;
    }
    return at;
}

static size_t stat_of(const struct node *n, uint8_t *reply)
{
    put(n->id, reply);
    reply[4] = n->kind;
    reply[5] = n->mode;
    put(n->size, reply + 6);
    return 10;
}

size_t host_reply(const uint8_t *request, size_t length, uint8_t *reply)
{
    switch (request[0]) {
    case GUARD_CREATE: case GUARD_MKDIR: return put(new_id(), reply);
    case GUARD_OPEN: return put(new_descriptor(), reply);
    case GUARD_FETCH: return fetch(by_descriptor(field(request + 1)), field(request + 5), reply);
    case GUARD_STORE: return put(GUARD_PAGE_LENGTH, reply);
    case GUARD_READDIR: return list(by_path(request + 1, length - 1), reply);
    case GUARD_STAT: return stat_of(by_path(request + 1, length - 1), reply);
    case GUARD_MAP: return map(field(request + 1), reply);
    default: return put(0, reply);
    }
}

/* ---- requests that are obeyed */

/* One entry more in the log: a page, or zeros from there on. */
static void keep(uint32_t id, uint32_t number, const uint8_t *page)
{
    if (tree.stored == KEPT) {
        tree.is_sure = 0;
        return;
    }
    pages[tree.stored].id = id;
    pages[tree.stored].number = number;
    pages[tree.stored].are_zeros = !page;
    if (page)
        memcpy(pages[tree.stored].page, page, GUARD_PAGE_LENGTH);
    tree.stored++;
}

static void store(struct node *n, const uint8_t *request)
{
    if (!n)
        return;
    n->size = field(request + 9);
    keep(n->id, field(request + 5), request + STORED_AT);
}

static void cut(struct node *n, uint32_t size)
{
    if (!n)
        return;
    if (size < n->size)
        keep(n->id, (size + GUARD_PAGE_LENGTH - 1) / GUARD_PAGE_LENGTH, NULL);
    n->size = size;
}

static void create(const uint8_t *request, size_t length, uint32_t id)
{
    add(id, GUARD_FILE, request[1], request + 2, length - 2);
    keep(id, 0, NULL); /* another file may have had the id */
}

int host_grows(const uint8_t *cut)
{
    const struct node *n = by_descriptor(field(cut + 1));
    return n && field(cut + 5) > n->size;
}

void host_obey(const uint8_t *request, size_t length, const uint8_t *reply)
{
    struct node *opened = by_descriptor(field(request + 1));
    switch (request[0]) {
    case GUARD_CREATE: create(request, length, field(reply)); break;
    case GUARD_MKDIR: add(field(reply), GUARD_DIRECTORY, request[1], request + 2, length - 2); break;
    case GUARD_OPEN: by_path(request + 2, length - 2)->descriptor = field(reply); break;
    case GUARD_CLOSE: if (opened) opened->descriptor = NO_DESCRIPTOR; break;
    case GUARD_STORE: store(opened, request); break;
    case GUARD_CUT: cut(opened, field(request + 5)); break;
    case GUARD_REMOVE: case GUARD_RMDIR: take_out(by_path(request + 1, length - 1)); break;
    case GUARD_CHMOD: by_path(request + 2, length - 2)->mode = request[1]; break;
    case GUARD_MAP: keep_map(long_field(reply), field(request + 1)); break;
    case GUARD_UNMAP: end_map(long_field(request + 1)); break;
    case GUARD_RENAME:
        rename_node(request + 2, request[1], request + 2 + request[1], length - 2 - request[1]);
        break;
    }
}

/* ---- saves and loads: the log of pages only grows, so a tree that comes back finds its pages by its own count */

void host_saved(void)
{
    saved = tree;
}

void host_loaded(void)
{
    tree = saved;
}

/* The record behind this one. */
static const uint8_t *next_record(const uint8_t *record) { return record + RECORD + record[RECORD - 1]; }

/* The path of a record's node, whose parent may come later; its length. The root, which is the first, has none. */
static size_t put_path(const uint8_t *root, const uint8_t *record, uint8_t *path)
{
    const uint8_t *parent = root;
    if (record == root)
        return 0;
    while (field(parent) != field(record + 4))
        parent = next_record(parent);
    size_t length = put_path(root, parent, path);
    path[length] = '/';
    memcpy(path + length + 1, record + RECORD, record[RECORD - 1]);
    return length + 1 + record[RECORD - 1];
}

void host_loaded_image(const uint8_t *image)
{
    const uint8_t *root = image + 4, *record = next_record(root);
    begin_tree();
    tree.is_sure = 0;
    tree.nodes[0].mode = root[9];
    for (uint32_t left = field(image); --left > 0; record = next_record(record)) {
        uint8_t path[GUARD_PATH_LENGTH + 1];
        struct node *n = add(field(record), record[8], record[9], path, put_path(root, record, path));
        n->parent = field(record + 4);
        n->size = field(record + 10);
    }
}

int host_is_sure(void)
{
    return tree.is_sure;
}
