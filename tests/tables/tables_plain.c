/* Straightforward C on the rows of the guard's tables. */
#include <string.h>
#include "entries.h"

struct node {
    uint64_t id, parent;
    uint8_t kind, mode;
    uint32_t size;
    uint8_t length;
    uint8_t name[GUARD_NAME_LENGTH + 1];
} __attribute__((packed));

static uint32_t pages(uint32_t size) { return (size + GUARD_PAGE_LENGTH - 1) / GUARD_PAGE_LENGTH; }

size_t plain_find(const uint8_t *m, size_t len, size_t n, uint64_t parent, const uint8_t *name, size_t name_len)
{
    const struct node *nodes = (const struct node *)(m + NODES_AT);
    for (size_t i = 0; i < n; i++)
        if (nodes[i].parent == parent && nodes[i].length == name_len && memcmp(nodes[i].name, name, name_len) == 0)
            return i;
    return n;
}

void plain_add(uint8_t *m, size_t len, size_t n, const uint8_t *row)
{
    memcpy(m + NODES_AT + n * sizeof(struct node), row, sizeof(struct node));
}

void plain_remove(uint8_t *m, size_t len, size_t n, size_t k)
{
    struct node *nodes = (struct node *)(m + NODES_AT);
    size_t first = 0, total = 0;
    for (size_t i = 0; i < k; i++)
        first += pages(nodes[i].size);
    for (size_t i = 0; i < n; i++)
        total += pages(nodes[i].size);
    size_t next = first + pages(nodes[k].size);
    memmove(m + DIGESTS_AT + DIGEST * first, m + DIGESTS_AT + DIGEST * next, DIGEST * (total - next));
    memmove(nodes + k, nodes + k + 1, (n - (k + 1)) * sizeof(struct node));
}

void plain_put_digest(uint8_t *m, size_t len, size_t k, const uint8_t *x)
{
    memcpy(m + DIGESTS_AT + DIGEST * k, x, DIGEST);
}

static __attribute__((noinline)) size_t write_image(const uint8_t *m, size_t n, uint8_t *out)
{
    const struct node *nodes = (const struct node *)(m + NODES_AT);
    uint8_t *p = out;
    uint32_t count = n, total = 0;
    memcpy(p, &count, 4);
    p += 4;
    for (size_t i = 0; i < n; i++) {
        const struct node *r = nodes + i;
        memcpy(p, &r->id, 4);
        memcpy(p + 4, &r->parent, 4);
        p[8] = r->kind;
        p[9] = r->mode;
        memcpy(p + 10, &r->size, 4);
        p[14] = r->length;
        memcpy(p + 15, r->name, r->length);
        p += 15 + r->length;
        total += pages(r->size);
    }
    memcpy(p, &total, 4);
    memcpy(p + 4, m + DIGESTS_AT, 32 * (size_t)total);
    return p - out + 4 + 32 * (size_t)total;
}

size_t plain_write_image(const uint8_t *m, size_t len, size_t n, uint8_t *out,
    size_t out_len) { return write_image(m, n, out); }

/* the same under another name, for setting up: what is counted is found by its name */
size_t setup_image(const uint8_t *m, size_t n, uint8_t *out) { return write_image(m, n, out); }

static uint32_t get32(const uint8_t *p)
{
    uint32_t x;
    memcpy(&x, p, 4);
    return x;
}

/* what a record says of itself: id, kind, mode and size, its name's form; of the root's all but its mode is given */
static int is_record(const uint8_t *r, int is_root)
{
    uint32_t id = get32(r), parent = get32(r + 4), size = get32(r + 10);
    const uint8_t *name = r + 15;
    size_t l = r[14];
    if (id == 0 || r[9] > 7 || (r[8] == 1 ? size > GUARD_FILE_LENGTH : r[8] != 2 || size != 0))
        return 0;
    if (is_root)
        return id == 1 && r[8] == 2 && parent == 0 && l == 0;
    if (l < 1 || l > GUARD_NAME_LENGTH || memchr(name, 0, l) || memchr(name, '/', l))
        return 0;
    return name[0] != '.' || !(l == 1 || (l == 2 && name[1] == '.'));
}

/* whether record i's id and its name in its directory stand nowhere before it; `up` gets its parent's place, and its
 * own place for those before it whose parent it is */
static int is_new(const uint8_t *const *at, size_t i, uint8_t *up)
{
    const uint8_t *r = at[i];
    uint32_t id = get32(r), parent = get32(r + 4);
    up[i] = i;
    for (size_t k = 0; k < i; k++) {
        if (get32(at[k]) == id)
            return 0;
        if (get32(at[k]) == parent)
            up[i] = k;
        if (get32(at[k] + 4) == id)
            up[k] = i;
        if (get32(at[k] + 4) == parent && at[k][14] == r[14] && memcmp(at[k] + 15, r + 15, r[14]) == 0)
            return 0;
    }
    return 1;
}

/* whether each record goes up to the root by directories, within a path's length; a ring has more steps than records */
static int all_reach_root(const uint8_t *const *at, size_t n, const uint8_t *up)
{
    for (size_t i = 1; i < n; i++) {
        size_t length = 0, steps = 0;
        for (size_t k = i; k != 0; k = up[k]) {
            if (steps++ == n || at[up[k]][8] != 2)
                return 0;
            length += 1 + at[k][14];
        }
        if (length > GUARD_PATH_LENGTH)
            return 0;
    }
    return 1;
}

/* every soundness rule; 0 where one fails */
int plain_is_sound(const uint8_t *s, size_t length)
{
    const uint8_t *at[NODES];
    uint8_t up[NODES];
    size_t total = 0, p = 4;
    if (length < 4)
        return 0;
    size_t n = get32(s);
    if (n < 1 || n > NODES)
        return 0;
    for (size_t i = 0; i < n; i++) {
        if (length - p < 15 || length - p - 15 < s[p + 14])
            return 0;
        at[i] = s + p;
        p += 15 + at[i][14];
        if (!is_record(at[i], i == 0) || !is_new(at, i, up))
            return 0;
        total += pages(get32(at[i] + 10));
    }
    if (!all_reach_root(at, n, up) || length - p < 4 || total > GUARD_PAGES || get32(s + p) != total)
        return 0;
    return length - p - 4 == total * DIGEST;
}

size_t plain_load(const uint8_t *s, size_t length, uint8_t *m, size_t len)
{
    struct node *nodes = (struct node *)(m + NODES_AT);
    size_t n = get32(s), p = 4, total = 0;
    for (size_t i = 0; i < n; i++) {
        const uint8_t *r = s + p;
        struct node *w = nodes + i;
        memset(w, 0, WIDTH);
        w->id = get32(r);
        w->parent = get32(r + 4);
        w->kind = r[8];
        w->mode = r[9];
        w->size = get32(r + 10);
        w->length = r[14];
        memcpy(w->name, r + 15, r[14]);
        total += pages(w->size);
        p += 15 + r[14];
    }
    memcpy(m + DIGESTS_AT, s + p + 4, DIGEST * total);
    return n;
}
