/* End to end: a client with the guard and the real host (examples/host) beside the same calls straight to the file
 * system, taken in turns in one directory.
 *
 *     whole DIRECTORY     for each load: the time as a ratio to the calls alone, the guard's share and the pages'
 *
 * The guard's share is what is not spent in the host; the pages' share what the host spends beyond the calls alone:
 * pages of 1,024 bytes, a table of ids. */
#define _GNU_SOURCE
#include <dirent.h>
#include <fcntl.h>
#include <stdio.h>
#include <stdlib.h>
#include <string.h>
#include <sys/stat.h>
#include <time.h>
#include <unistd.h>
#include "client.h"

enum { CHUNK = 4096, CHUNKS = 16, FILES = 100, TURNS = 101 };

static client c;
static host *the_host;
static uint32_t handle;
static int direct, direct_file;
static uint8_t bytes[CHUNK];
static int shuffled[CHUNKS] = {5, 12, 0, 9, 14, 3, 7, 11, 1, 15, 6, 10, 2, 13, 8, 4};
static double in_host;

static double now(void)
{
    struct timespec t;
    clock_gettime(CLOCK_MONOTONIC, &t);
    return (double)t.tv_sec * 1e9 + (double)t.tv_nsec;
}

static void must(int is_right, const char *what)
{
    if (is_right)
        return;
    fprintf(stderr, "whole: %s\n", what);
    exit(1);
}

static void done(guard_outcome o,
    uint64_t number) { must(o.kind == GUARD_DONE && o.number == number, "another outcome"); }

static size_t timed_host(void *h, const uint8_t *request, size_t length, uint8_t reply[HOST_REPLY_LENGTH])
{
    double start = now();
    size_t n = host_reply(h, request, length, reply);
    in_host += now() - start;
    return n;
}

static const char *name_of(int k)
{
    static char name[32];
    snprintf(name, sizeof name, "/many/file-%03d", k);
    return name;
}

static const char *listed_of(int k)
{
    static char name[32];
    snprintf(name, sizeof name, "/list/file-%03d", k);
    return name;
}

/* ---- the loads: by the client, and straight */

static void guarded_read(const int *order)
{
    for (int i = 0; i < CHUNKS; i++) {
        uint64_t at = (uint64_t)(order ? order[i] : i) * CHUNK;
        done(client_seek(&c, handle, at), at);
        done(client_read(&c, handle, CHUNK), CHUNK);
    }
}

static void guarded_write(const int *order)
{
    for (int i = 0; i < CHUNKS; i++) {
        uint64_t at = (uint64_t)(order ? order[i] : i) * CHUNK;
        done(client_seek(&c, handle, at), at);
        done(client_write(&c, handle, bytes, CHUNK), CHUNK);
    }
}

static void guarded_files(const int *order)
{
    (void)order;
    for (int k = 0; k < FILES; k++)
        must(client_create(&c, name_of(k), 7).kind == GUARD_DONE, "no file");
    for (int k = 0; k < FILES; k++)
        done(client_remove(&c, name_of(k)), 0);
}

static void guarded_listing(const int *order)
{
    (void)order;
    done(client_readdir(&c, "/list"), FILES);
}

static void guarded_rename(const char *first, const char *second)
{
    char call[64];
    int n = snprintf(call, sizeof call, "\x10%c%s%s", (int)strlen(first), first, second);
    done(client_call(&c, (const uint8_t *)call, (size_t)n), 0);
}

/* Each file into the other folder, then back. */
static void guarded_renames(const int *order)
{
    (void)order;
    for (int k = 0; k < FILES; k++)
        guarded_rename(listed_of(k), name_of(k));
    for (int k = 0; k < FILES; k++)
        guarded_rename(name_of(k), listed_of(k));
}

static void direct_read(const int *order)
{
    for (int i = 0; i < CHUNKS; i++)
        must(pread(direct_file, bytes, CHUNK, (off_t)(order ? order[i] : i) * CHUNK) == CHUNK, "pread");
}

static void direct_write(const int *order)
{
    for (int i = 0; i < CHUNKS; i++)
        must(pwrite(direct_file, bytes, CHUNK, (off_t)(order ? order[i] : i) * CHUNK) == CHUNK, "pwrite");
}

static void direct_files(const int *order)
{
    (void)order;
    for (int k = 0; k < FILES; k++) {
        int file = openat(direct, name_of(k) + 1, O_CREAT | O_EXCL | O_RDWR, 0600);
        must(file >= 0 && close(file) == 0, "openat");
    }
    for (int k = 0; k < FILES; k++)
        must(unlinkat(direct, name_of(k) + 1, 0) == 0, "unlinkat");
}

static void direct_renames(const int *order)
{
    (void)order;
    for (int k = 0; k < FILES; k++)
        must(renameat(direct, listed_of(k) + 1, direct, name_of(k) + 1) == 0, "renameat");
    for (int k = 0; k < FILES; k++)
        must(renameat(direct, name_of(k) + 1, direct, listed_of(k) + 1) == 0, "renameat");
}

static void direct_listing(const int *order)
{
    int count = 0;
    DIR *d = fdopendir(openat(direct, "list", O_RDONLY | O_DIRECTORY));
    (void)order;
    must(d != NULL, "opendir");
    for (struct dirent *e; (e = readdir(d)) != NULL;)
        count += e->d_name[0] != '.';
    closedir(d);
    must(count == FILES, "readdir");
}

static const struct load { const char *name; void (*guarded)(const int *),
    (*straight)(const int *); const int *order; } loads[] = {
    {"sequential reads of 4 KB", guarded_read, direct_read, NULL},
    {"random reads of 4 KB", guarded_read, direct_read, shuffled},
    {"sequential writes of 4 KB", guarded_write, direct_write, NULL},
    {"random writes of 4 KB", guarded_write, direct_write, shuffled},
    {"create and delete 100 files", guarded_files, direct_files, NULL},
    {"rename 100 files and back", guarded_renames, direct_renames, NULL},
    {"a listing of 100 files", guarded_listing, direct_listing, NULL},
};

/* ---- */

static void set_up(const char *directory)
{
    char tree[4096], table[4096], straight[4096];
    snprintf(tree, sizeof tree, "%s/tree", directory);
    snprintf(table, sizeof table, "%s/table", directory);
    snprintf(straight, sizeof straight, "%s/straight", directory);
    the_host = host_open(tree, table);
    must(the_host != NULL && mkdir(straight, 0700) == 0, "no directory");
    direct = open(straight, O_RDONLY | O_DIRECTORY);
    must(mkdirat(direct, "many", 0700) == 0 && mkdirat(direct, "list", 0700) == 0, "mkdirat");
    client_begin(&c, timed_host, the_host, NULL);
    must(client_mkdir(&c, "/many", 7).kind == GUARD_DONE && client_mkdir(&c, "/list", 7).kind == GUARD_DONE, "mkdir");
    for (int k = 0; k < FILES; k++) {
        must(client_create(&c, listed_of(k), 7).kind == GUARD_DONE, "create");
        must(close(openat(direct, listed_of(k) + 1, O_CREAT | O_RDWR, 0600)) == 0, "openat");
    }
    must(client_create(&c, "/file", 7).kind == GUARD_DONE, "create");
    handle = (uint32_t)client_open(&c, "/file", 3).number;
    direct_file = openat(direct, "file", O_CREAT | O_RDWR, 0600);
    for (int i = 0; i < CHUNK; i++)
        bytes[i] = (uint8_t)(i * 7);
    guarded_write(NULL);
    direct_write(NULL);
}

static int by_value(const void *a, const void *b)
{
    double x = *(const double *)a, y = *(const double *)b;
    return (x > y) - (x < y);
}

static double median(double *x)
{
    qsort(x, TURNS, sizeof *x, by_value);
    return x[TURNS / 2];
}

static void measure(const struct load *l)
{
    double ratio[TURNS], guards[TURNS], pages[TURNS];
    for (int i = 0; i < TURNS; i++) {
        double start = now(), all, alone;
        in_host = 0;
        l->guarded(l->order);
        all = now() - start;
        start = now();
        l->straight(l->order);
        alone = now() - start;
        ratio[i] = all / alone;
        guards[i] = (all - in_host) / all;
        pages[i] = (in_host - alone) / all;
    }
    printf("%-29s %6.1f %7.0f%% %7.0f%%\n", l->name, median(ratio), 100 * median(guards), 100 * median(pages));
}

int main(int n, char **words)
{
    must(n == 2, "whole DIRECTORY");
    set_up(words[1]);
    printf("%-29s %6s %8s %8s\n", "end to end", "ratio", "guard", "pages");
    for (size_t i = 0; i < sizeof loads / sizeof *loads; i++)
        measure(loads + i);
    host_close(the_host);
    return 0;
}
