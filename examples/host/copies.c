#define _XOPEN_SOURCE 700 /* opendir, rename */
#include "copies.h"

#include <dirent.h>
#include <errno.h>
#include <stdio.h>
#include <string.h>
#include <sys/stat.h>
#include <unistd.h>

#include "snapshot.h"
#include "whole.h"

typedef char path_text[COPIES_PATH];

static const char *within(const copies *c, const char *name, path_text to)
{
    snprintf(to, COPIES_PATH, "%s/%s", c->place, name);
    return to;
}

static void put_digits(char to[COPIES_DIGITS + 1], const uint8_t *digest)
{
    to[0] = '\0';
    for (size_t i = 0; digest && i < GUARD_DIGEST_LENGTH; i++)
        sprintf(to + 2 * i, "%02x", digest[i]);
}

void copies_begin(copies *c, const char *place)
{
    memset(c, 0, sizeof *c);
    c->place = place;
    within(c, "now/tree", c->tree);
    within(c, "now/table", c->table);
}

void copies_end(copies *c)
{
    if (c->host)
        host_close(c->host);
    c->host = NULL;
}

int copies_start(copies *c, const uint8_t *digest)
{
    path_text now, copy, fresh;
    copies_end(c);
    put_digits(c->last, digest);
    within(c, "now", now);
    within(c, c->last, copy);
    if (digest && access(copy, F_OK)) /* before anything is cleared */
        return -1;
    /* a sync that found the disk full has left a part of a copy, and what is copied now needs that room */
    if (snapshot_clear(now) || snapshot_clear(within(c, "new", fresh)))
        return -1;
    if (digest ? snapshot_copy(copy, now) : mkdir(now, 0700))
        return -1;
    c->host = host_open(c->tree, c->table);
    if (c->host)
        host_limit(c->host, c->budget);
    return c->host ? 0 : -1;
}

/* Copies but these two: of older saves, and one that was not finished. */
static int forget_others(const copies *c, const char *one, const char *other)
{
    path_text path;
    DIR *d = opendir(c->place);
    int status = d ? 0 : -1;
    for (struct dirent *e; !status && (e = readdir(d));)
        if (e->d_name[0] != '.' && strcmp(e->d_name, "now") && strcmp(e->d_name, one) && strcmp(e->d_name, other))
            status = snapshot_clear(within(c, e->d_name, path));
    if (d)
        closedir(d);
    return status;
}

/* A copy that is there already under this digest is of the same tree; but its name may not be on the disk yet. */
int copies_sync(copies *c, const uint8_t *digest)
{
    path_text now, fresh, copy;
    char save[COPIES_DIGITS + 1];
    put_digits(save, digest);
    within(c, "now", now);
    within(c, "new", fresh);
    if (forget_others(c, c->last, save))
        return -1;
    if (access(within(c, save, copy), F_OK) && (snapshot_copy(now, fresh) || host_sync(c->host) || rename(fresh, copy)))
        return -1;
    if (whole_sync_names(c->place))
        return -1;
    strcpy(c->last, save);
    return 0;
}
