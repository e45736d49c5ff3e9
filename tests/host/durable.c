#define _GNU_SOURCE
#include "durable.h"

#include <dirent.h>
#include <fcntl.h>
#include <ftw.h>
#include <stdio.h>
#include <stdlib.h>
#include <string.h>
#include <sys/stat.h>
#include <unistd.h>

/* The record of an inode, to be written. stdio's own calls are not those that the linker wraps. */
static FILE *record_of(ino_t inode)
{
    char path[4096];
    snprintf(path, sizeof path, "%s/%llu", getenv("DURABLE"), (unsigned long long)inode);
    FILE *f = fopen(path, "wb");
    if (!f) {
        perror(path);
        exit(2);
    }
    return f;
}

static void keep_bytes(const char *path, ino_t inode)
{
    char bytes[65536];
    FILE *from = fopen(path, "rb"), *to = record_of(inode);
    if (from)
        for (size_t n; (n = fread(bytes, 1, sizeof bytes, from)) > 0;)
            fwrite(bytes, 1, n, to);
    if (from)
        fclose(from);
    fclose(to);
}

/* Each entry is its inode, d for a directory or f, its name and a zero byte. */
static void keep_names(const char *path, ino_t inode)
{
    DIR *d = opendir(path);
    FILE *to = record_of(inode);
    for (struct dirent *e; d && (e = readdir(d));)
        if (strcmp(e->d_name, ".") && strcmp(e->d_name, ".."))
            fprintf(to, "%llu %c %s%c", (unsigned long long)e->d_ino, e->d_type == DT_DIR ? 'd' : 'f', e->d_name, 0);
    if (d)
        closedir(d);
    fclose(to);
}

static int keep(const char *path, const struct stat *s, int flag, struct FTW *where)
{
    (void)flag, (void)where;
    S_ISDIR(s->st_mode) ? keep_names(path, s->st_ino) : keep_bytes(path, s->st_ino);
    return 0;
}

static int is_kept(void) { return getenv("DURABLE") && getenv("PLACE"); }

void durable_one(int file)
{
    char path[64];
    struct stat s;
    if (!is_kept() || fstat(file, &s))
        return;
    snprintf(path, sizeof path, "/proc/self/fd/%d", file);
    keep(path, &s, 0, NULL);
}

void durable_all(void)
{
    if (is_kept())
        nftw(getenv("PLACE"), keep, 16, FTW_PHYS);
}

static int forget(const char *path, const struct stat *s, int flag, struct FTW *where)
{
    (void)s, (void)where;
    return flag == FTW_F ? unlink(path) : 0;
}

void durable_begin(void)
{
    if (!is_kept())
        return;
    mkdir(getenv("DURABLE"), 0700);
    nftw(getenv("DURABLE"), forget, 16, FTW_PHYS);
    durable_all();
}
