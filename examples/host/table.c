#define _XOPEN_SOURCE 700 /* open_memstream */
#include "table.h"

#include <errno.h>
#include <stdio.h>
#include <stdlib.h>
#include <string.h>

#include "guard_client.h"
#include "whole.h"

/* The first record is "NEXT COUNT " and a zero byte: the next id to be given, and how many rows follow. A row is "ID
 * MODE PATH" and a zero byte: a path may hold every other byte. `tr '\0' '\n' <FILE` shows it. */
enum { ROW_LENGTH = 11 + 4 + GUARD_PATH_LENGTH + 1, FILE_LENGTH = (1 + TABLE_ROWS) * ROW_LENGTH };

/* A record's two numbers; what stands behind them, up to its zero byte. Null where there is none. */
static const char *read_record(const char **at, const char *end, unsigned *one, unsigned *other)
{
    const char *record = *at, *zero = memchr(record, 0, (size_t)(end - record));
    int behind = 0;
    if (!zero || sscanf(record, "%u %u%n", one, other, &behind) != 2 || record[behind] != ' ')
        return NULL;
    *at = zero + 1;
    return record + behind + 1;
}

static int read_row(const char **at, const char *end, table_row *row)
{
    unsigned id, mode;
    const char *path = read_record(at, end, &id, &mode);
    if (!path || id == 0 || mode > GUARD_MODE_ALL || !guard_is_path(path, strlen(path)))
        return 0;
    row->id = id;
    row->mode = (uint8_t)mode;
    strcpy(row->path, path);
    return 1;
}

/* All of a file's bytes are those of a table, or it is none. */
static int read_rows(table *t, const char *at, const char *end)
{
    unsigned count;
    if (!read_record(&at, end, &t->next, &count) || count > TABLE_ROWS)
        return 0;
    for (t->count = 0; t->count < count; t->count++)
        if (!read_row(&at, end, &t->rows[t->count]))
            return 0;
    return at == end && table_find(t, "/") != NULL;
}

void table_begin(table *t, const char *file)
{
    t->file = file;
    t->next = 2; /* the root has 1 */
    t->count = 1;
    t->rows[0] = (table_row){GUARD_ROOT, GUARD_MODE_ALL, "/"};
}

int table_read(table *t, const char *file)
{
    char *bytes = malloc(FILE_LENGTH + 1);
    ssize_t n = bytes ? whole_get(file, bytes, FILE_LENGTH + 1) : -1;
    int good = n >= 0 && read_rows(t, bytes, bytes + n);
    if (n >= 0 && !good)
        errno = EBADMSG;
    t->file = file;
    free(bytes);
    return good ? 0 : -1;
}

int table_write(const table *t)
{
    char *bytes = NULL;
    size_t length = 0;
    FILE *f = open_memstream(&bytes, &length);
    if (!f)
        return -1;
    fprintf(f, "%u %zu %c", t->next, t->count, 0);
    for (size_t i = 0; i < t->count; i++)
        fprintf(f, "%u %u %s%c", t->rows[i].id, t->rows[i].mode, t->rows[i].path, 0);
    int failed = ferror(f);
    int status = fclose(f) || failed ? -1 : whole_replace(t->file, bytes, length);
    free(bytes);
    return status;
}

table_row *table_find(table *t, const char *path)
{
    for (size_t i = 0; i < t->count; i++)
        if (!strcmp(t->rows[i].path, path))
            return &t->rows[i];
    return NULL;
}

static int has_id(const table *t, uint32_t id)
{
    for (size_t i = 0; i < t->count; i++)
        if (t->rows[i].id == id)
            return 1;
    return 0;
}

table_row *table_add(table *t, const char *path, uint8_t mode)
{
    if (t->count == TABLE_ROWS || strlen(path) > GUARD_PATH_LENGTH) {
        errno = t->count == TABLE_ROWS ? ENOSPC : ENAMETOOLONG;
        return NULL;
    }
    while (!guard_is_new_id(t->next) || has_id(t, t->next))
        t->next++;
    table_row *row = &t->rows[t->count++];
    row->id = t->next++;
    row->mode = mode;
    strcpy(row->path, path);
    return row;
}

void table_remove(table *t, const char *path)
{
    table_row *row = table_find(t, path);
    if (row)
        *row = t->rows[--t->count];
}

/* Whether a path is this one or lies beneath it. */
static int is_within(const char *path, const char *top)
{
    size_t n = strlen(top);
    return !strncmp(path, top, n) && (path[n] == '\0' || path[n] == '/');
}

static int copy_row(table *t, const table_row *row, const char *path, const char *new_path)
{
    const char *rest = row->path + strlen(path);
    if (t->count == TABLE_ROWS || strlen(new_path) + strlen(rest) > GUARD_PATH_LENGTH) {
        errno = t->count == TABLE_ROWS ? ENOSPC : ENAMETOOLONG;
        return -1;
    }
    table_row *copy = &t->rows[t->count++];
    copy->id = row->id;
    copy->mode = row->mode;
    strcpy(copy->path, new_path);
    strcat(copy->path, rest);
    return 0;
}

int table_copy(table *t, const char *path, const char *new_path)
{
    size_t count = t->count; /* what is copied is not copied again */
    for (size_t i = 0; i < count; i++)
        if (is_within(t->rows[i].path, path) && copy_row(t, &t->rows[i], path, new_path))
            return -1;
    return 0;
}

void table_remove_all(table *t, const char *path)
{
    for (size_t i = t->count; i-- > 0;)
        if (is_within(t->rows[i].path, path))
            t->rows[i] = t->rows[--t->count];
}
