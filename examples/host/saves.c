#include "saves.h"

#include <errno.h>
#include <stdio.h>

#include "trace.h"
#include "whole.h"

enum { IMAGES = 2, PATH = 4096 };

static const char *image_path(const saves *s, int which, char to[PATH])
{
    snprintf(to, PATH, "%s/image.%d", s->images, which);
    return to;
}

static const char *digest_path(const saves *s, char to[PATH])
{
    snprintf(to, PATH, "%s/digest", s->own);
    return to;
}

/* ---- start */

/* Which image has the digest and is loaded; -1 where none is. */
static int load_one(saves *s, guard_client *c, const uint8_t *digest, size_t length)
{
    char path[PATH];
    for (int which = 0; which < IMAGES; which++) {
        ssize_t n = whole_get(image_path(s, which, path), s->image, sizeof s->image);
        if (n < 0)
            continue;
        guard_outcome o = guard_client_load(c, s->image, (size_t)n, digest, length);
        trace_load(s->trace, s->image, (size_t)n, digest, length, o);
        if (o.kind == GUARD_DONE)
            return which;
    }
    errno = EBADMSG;
    return -1;
}

int saves_start(saves *s, guard_client *c)
{
    char path[PATH];
    uint8_t digest[GUARD_DIGEST_LENGTH + 1]; /* a byte more than it may have */
    ssize_t n = whole_get(digest_path(s, path), digest, sizeof digest);
    s->failed = s->next = 0;
    if (n < 0) /* power was lost before the first save was done; any other fault is no reason to begin anew */
        return errno == ENOENT && !s->start(s->host, NULL) ? SAVES_FRESH : -1;
    int which = load_one(s, c, digest, (size_t)n);
    if (which < 0 || s->start(s->host, digest))
        return -1;
    s->next = 1 - which;
    return SAVES_LOADED;
}

/* ---- save */

/* The host's tree, then the image, then the digest: none is on the disk before what it vouches for. */
static int put(saves *s, size_t length, const uint8_t *digest)
{
    char path[PATH];
    if (s->sync(s->host, digest))
        return -1;
    if (whole_put(image_path(s, s->next, path), s->image, length) || whole_sync_names(s->images))
        return -1;
    return whole_replace(digest_path(s, path), digest, GUARD_DIGEST_LENGTH);
}

int saves_save(saves *s, guard_client *c, guard_outcome *o)
{
    uint8_t digest[GUARD_DIGEST_LENGTH];
    if (s->failed) {
        errno = EIO;
        return -1;
    }
    *o = guard_client_save(c, s->image, sizeof s->image, digest);
    trace_save(s->trace, *o, s->image, digest);
    if (o->kind != GUARD_DONE)
        return 1;
    if (put(s, o->length, digest)) {
        s->failed = 1;
        return -1;
    }
    s->next = 1 - s->next;
    return 0;
}
