#define _XOPEN_SOURCE 700 /* nftw, popen */
#include "disk.h"

#include <ftw.h>
#include <stdio.h>
#include <stdlib.h>

static void need(int good, const char *what)
{
    if (!good) {
        perror(what);
        exit(2);
    }
}

static FILE *at_place(const char *file, const char *how, long at)
{
    FILE *f = fopen(file, how);
    need(f && !fseek(f, at, SEEK_SET), file);
    return f;
}

size_t disk_read(const char *file, long at, void *bytes, size_t length)
{
    FILE *f = at_place(file, "rb", at);
    size_t n = fread(bytes, 1, length, f);
    need(!ferror(f) && !fclose(f), file);
    return n;
}

static void put(FILE *f, const char *file, const void *bytes, size_t length)
{
    need(fwrite(bytes, 1, length, f) == length && !fclose(f), file);
}

void disk_write(const char *file, long at, const void *bytes, size_t length) { put(at_place(file, "r+b", at), file, bytes, length); }

void disk_move(const char *from, const char *to) { need(!rename(from, to), from); }

void disk_swap(const char *one, const char *other)
{
    disk_move(one, "aside");
    disk_move(other, one);
    disk_move("aside", other);
}

void disk_show(const char *command)
{
    char line[512];
    printf("    $ %s\n", command);
    fflush(stdout);
    FILE *f = popen(command, "r");
    need(f != NULL, command);
    while (fgets(line, sizeof line, f))
        printf("    %s", line);
    need(pclose(f) == 0, command);
}

static int clear_one(const char *path, const struct stat *s, int flag, struct FTW *where)
{
    (void)s, (void)flag, (void)where;
    return remove(path);
}

void disk_clear(const char *directory) { need(!nftw(directory, clear_one, 16, FTW_DEPTH | FTW_PHYS), directory); }
