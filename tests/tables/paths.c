/* paths compare: both codes on the same paths and nodes must answer the same. paths ours|plain short|long: one call of
 * each function, to be counted. */
#include <stdio.h>
#include <string.h>
#include "entries.h"

enum { DEEP = 8 };

static uint8_t memory[SIZE];

static void put(int i, uint64_t id, uint64_t parent, int kind, int mode, const char *name, int n)
{
    uint8_t *row = memory + NODES_AT + i * WIDTH;
    memset(row, 0, WIDTH);
    memcpy(row, &id, 8);
    memcpy(row + 8, &parent, 8);
    row[16] = (uint8_t)kind;
    row[17] = (uint8_t)mode;
    row[22] = (uint8_t)n;
    memcpy(row + 23, name, (size_t)n);
}

/* a full table: files beside each directory of a chain, whose nodes stand last; names of n bytes */
static size_t full(int n, uint8_t *path)
{
    char name[33];
    size_t at = 0;
    put(0, 1, 0, 2, 7, "", 0);
    for (int i = 1; i < NODES - DEEP; i++) {
        int level = i % DEEP;
        memset(name, 'x', 32);
        if (n == 1)
            name[0] = (char)(128 + i / DEEP);
        else {
            name[n - 1] = (char)('0' + i % 10);
            name[n - 2] = (char)('0' + i / 10 % 10);
            name[n - 3] = (char)('0' + i / 100);
        }
        put(i, (uint64_t)(1000 + i), level == 0 ? 1 : (uint64_t)(1 + NODES - DEEP + level - 1), 1, 6, name, n);
    }
    for (int i = 0; i < DEEP; i++) {
        int k = NODES - DEEP + i;
        memset(name, 'x', 32);
        name[n - 1] = 'd';
        put(k, (uint64_t)(1 + k), i == 0 ? 1 : (uint64_t)k, 2, 7, name, n);
        path[at++] = '/';
        memcpy(path + at, name, (size_t)n);
        at += (size_t)n;
    }
    return at;
}

static uint64_t state = 88172645463325252u;

static uint64_t random_number(void)
{
    state ^= state << 13;
    state ^= state >> 7;
    state ^= state << 17;
    return state;
}

/* where the walk's numbers are counted: behind every place */
enum { NUMBER_AT = 1000, NOT_DIRECTORY = NUMBER_AT + 20, BARRED = NUMBER_AT + 13, ABSENT = NUMBER_AT + 2 };

static long walks, forms, by_form[40], by_walk[NUMBER_AT + 100];

static int same_rights(void)
{
    for (unsigned mode = 0; mode < 8; mode++)
        for (unsigned rights = 1; rights < 4; rights++)
            if (ours_covers((uint8_t)mode, (uint8_t)rights) != (plain_covers(mode, rights) == 1))
                return printf("covers differs at %u %u\n", mode, rights), 0;
    return 1;
}

static int same_forms(uint8_t *path)
{
    for (int t = 0; t < 200000; t++) {
        static const char bytes[] = "//..aab\0";
        size_t n = random_number() % (t % 4 == 0 ? 600 : 12);
        for (size_t i = 0; i < n; i++)
            path[i] = t % 4 == 0 ? (random_number() % 20 == 0 ? '/' : 'a') : (uint8_t)bytes[random_number() % 8];
        if (n && random_number() % 8)
            path[0] = '/';
        uint64_t a = ours_form(path, n), b = plain_form(path, n);
        if (a != b)
            return printf("form differs: %lu %lu\n", (unsigned long)a, (unsigned long)b), 0;
        forms++;
        by_form[a]++;
    }
    return 1;
}

static int same_walks(uint8_t *path)
{
    for (int t = 0; t < 20000; t++) {
        size_t n = full(random_number() % 4 == 0 ? 1 : 4 + (int)(random_number() % 26), path);
        int nodes = 1 + (int)(random_number() % NODES);
        if (random_number() % 2)
            nodes = NODES;
        memory[NODES_AT + (NODES - DEEP + random_number() % DEEP) * WIDTH + 16 + random_number() % 2] =
            (uint8_t)(random_number() % 8);
        if (random_number() % 2)
            n = random_number() % (n + 1);
        uint64_t a = ours_walk(memory, SIZE, (size_t)nodes, path, n);
        uint64_t b = plain_walk(memory, SIZE, (size_t)nodes, path, n);
        if (a != b)
            return printf("walk differs: %lu %lu\n", (unsigned long)a, (unsigned long)b), 0;
        walks++;
        by_walk[a]++;
    }
    return 1;
}

static int compare(void)
{
    uint8_t path[600];
    if (!same_rights() || !same_forms(path) || !same_walks(path))
        return 1;
    if (!by_form[0] || !by_form[22] || !by_form[36] || !by_walk[0] || !by_walk[NODES - 1] || !by_walk[NOT_DIRECTORY] ||
        !by_walk[BARRED] || !by_walk[ABSENT])
        return printf("an answer never came up\n"), 2;
    printf("paths: the same as C on %ld forms (22 %ld, 36 %ld)", forms, by_form[22], by_form[36]);
    printf(" and %ld walks (20 %ld, 13 %ld, 2 %ld)", walks, by_walk[NOT_DIRECTORY], by_walk[BARRED], by_walk[ABSENT]);
    printf(", and on the whole table of rights\n");
    return 0;
}

int main(int count, char **words)
{
    uint8_t path[600];
    if (count < 2)
        return 2;
    if (strcmp(words[1], "compare") == 0)
        return compare();
    int ours = strcmp(words[1], "ours") == 0;
    size_t n = full(strcmp(words[2], "short") == 0 ? 1 : 28, path);
    uint64_t node = ours ? ours_walk(memory, SIZE, NODES, path, n) : plain_walk(memory, SIZE, NODES, path, n);
    uint64_t form = ours ? ours_form(path, n) : plain_form(path, n);
    printf("%lu %lu\n", (unsigned long)node, (unsigned long)form);
    return node == NODES - 1 && form == 0 ? 0 : 1;
}
