/* tables compare: each case by the proved code and by plain C must answer the same and leave the same memory and image.
 * tables ours|plain CASE: one call on full tables, to be counted. */
#include <stdio.h>
#include <stdlib.h>
#include <string.h>
#include "entries.h"

static uint8_t m[SIZE], row[WIDTH], name[GUARD_NAME_LENGTH], digest[DIGEST], image[GUARD_IMAGE_LENGTH];

/* 256 nodes of one parent, with names that differ in one byte, `from_end` before their end; the first has one page, the
 * others three or four */
static void fill(size_t name_len, size_t from_end)
{
    memset(name, 'a', sizeof name);
    for (int i = 0; i < NODES; i++) {
        uint8_t *r = m + NODES_AT + WIDTH * i;
        r[0] = i + 1;
        r[8] = 1;
        r[16] = 1;
        r[17] = 7;
        r[18 + 1] = i == 0 ? 4 : i % 2 ? 12 : 16;
        r[22] = name_len;
        memset(r + 23, 'a', name_len);
        r[23 + name_len - from_end] = i;
    }
    for (int i = DIGESTS_AT; i < SIZE; i++)
        m[i] = i * 7;
    name[name_len - from_end] = 255;
    for (int i = 0; i < WIDTH; i++)
        row[i] = i < 18 || i > 21 ? 100 + i : 0; /* a new node's size is 0 */
}

/* the root and 255 files in it, names of 32 bytes, 1,024 pages: the longest image */
static size_t longest(void)
{
    fill(GUARD_NAME_LENGTH, 1);
    for (int i = 0; i < NODES; i++) {
        uint8_t *r = m + NODES_AT + WIDTH * i;
        r[1] = (i + 1) >> 8;
        r[8] = i != 0;
        r[16] = i == 0 ? 2 : 1;
        r[18 + 1] = i == 0 ? 0 : i == NODES - 1 ? 32 : 16;
        r[22] = i == 0 ? 0 : GUARD_NAME_LENGTH;
        r[23 + 30] = i == '/' ? 'b' : 'a';
        r[23 + 31] = i == '/' ? 'b' : i;
    }
    return setup_image(m, NODES, image);
}

/* the root and directories with names of one byte, each before the one it stands in; the last one's parent is `top` */
static size_t deepest_first(size_t directories, size_t top)
{
    for (size_t i = 0; i <= directories; i++) {
        uint8_t *r = m + NODES_AT + WIDTH * i;
        r[0] = i == 0 ? 1 : directories + 2 - i;
        r[8] = i == 0 ? 0 : i == directories ? top : directories + 1 - i;
        r[16] = 2;
        r[17] = 7;
        r[22] = i != 0;
        r[23] = 'd';
    }
    return setup_image(m, directories + 1, image);
}

/* what is judged beside the longest image: how many directories, the last one's parent, a place that is a file's or 0,
 * and whether it is sound */
static const struct order { const char *name; size_t directories, top, file; int is_sound; } orders[] = {
    {"deepest first", 127, 1, 0, 1}, {"too deep", 128, 1, 0, 0}, {"no parent", 3, 9, 0, 0},
    {"a file last", 3, 1, 3, 0}, {"a file first", 3, 1, 1, 1}, {"its own parent", 1, 2, 0, 0},
    {"ring of two", 2, 3, 0, 0}, {"ring of three", 3, 4, 0, 0}, {"ring of 200", 200, 201, 0, 0},
};
enum { ORDERS = sizeof orders / sizeof *orders };

static int is_sound(int ours, const struct order *o)
{
    memset(m, 0, sizeof m);
    size_t n = deepest_first(o->directories, o->top);
    if (o->file)
        image[4 + 15 + (o->file - 1) * 16 + 8] = 1;
    return ours ? ours_is_sound(image, n) : plain_is_sound(image, n);
}

static const char *const cases[] = {"find1", "find7", "find28", "middle28", "add", "remove", "digest", "image", "sound",
    "load"};
enum { CASES = sizeof cases / sizeof *cases };

/* one case on tables of its own making: what the function answers */
static size_t run(int ours, const char *op)
{
    memset(m, 0, sizeof m);
    memset(image, 0, sizeof image);
    memset(digest, 9, sizeof digest);
    if (strcmp(op, "image") == 0 || strcmp(op, "sound") == 0 || strcmp(op, "load") == 0) {
        size_t n = longest();
        if (n != sizeof image)
            exit(2);
        if (strcmp(op, "sound") == 0)
            return ours ? ours_is_sound(image, n) : (size_t)plain_is_sound(image, n);
        if (strcmp(op, "load") == 0) {
            memset(m, 0, sizeof m);
            return ours ? ours_load(image, n, m, SIZE) : plain_load(image, n, m, SIZE);
        }
        memset(image, 0, sizeof image);
        return ours ? ours_write_image(m, SIZE, NODES, image, sizeof image)
            : plain_write_image(m, SIZE, NODES, image, sizeof image);
    }
    size_t l = strcmp(op, "find1") == 0 ? 1 : strcmp(op, "find7") == 0 ? 7 : 28;
    fill(l, strcmp(op, "middle28") == 0 ? 11 : 1);
    if (strcmp(op, "add") == 0)
        ours ? ours_add(m, SIZE, 200, row) : plain_add(m, SIZE, 200, row);
    else if (strcmp(op, "remove") == 0)
        ours ? ours_remove(m, SIZE, NODES, 0) : plain_remove(m, SIZE, NODES, 0);
    else if (strcmp(op, "digest") == 0)
        ours ? ours_put_digest(m, SIZE, GUARD_PAGES - 1, digest) : plain_put_digest(m, SIZE, GUARD_PAGES - 1, digest);
    else
        return ours ? ours_find(m, SIZE, NODES, 1, name, l) : plain_find(m, SIZE, NODES, 1, name, l);
    return 0;
}

static int compare(void)
{
    static uint8_t m1[sizeof m], image1[sizeof image];
    for (int i = 0; i < CASES; i++) {
        size_t r = run(1, cases[i]);
        memcpy(m1, m, sizeof m);
        memcpy(image1, image, sizeof image);
        if (run(0, cases[i]) != r || memcmp(m1, m, sizeof m) || memcmp(image1, image, sizeof image))
            return printf("tables: %s differs from C\n", cases[i]), 1;
        if (strcmp(cases[i], "sound") == 0 && r != 1)
            return printf("tables: the longest image is judged unsound\n"), 2;
    }
    for (const struct order *o = orders; o < orders + ORDERS; o++) {
        if (is_sound(1, o) != o->is_sound)
            return printf("tables: %s is judged wrongly\n", o->name), 2;
        if (is_sound(0, o) != o->is_sound)
            return printf("tables: %s differs from C\n", o->name), 1;
    }
    printf("tables: the same answer and memory as C in %d cases, %d orders of nodes\n", CASES, ORDERS);
    return 0;
}

int main(int argc, char **argv)
{
    if (argc == 2 && strcmp(argv[1], "compare") == 0)
        return compare();
    for (int i = 0; argc == 3 && i < CASES; i++)
        if (strcmp(argv[2], cases[i]) == 0) {
            run(strcmp(argv[1], "ours") == 0, cases[i]);
            return 0;
        }
    return 2;
}
