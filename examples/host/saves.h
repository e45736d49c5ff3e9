/* Save and start, for a client whose files must outlive power loss.
 *
 * Two images stand in a directory that the host may have; the digest of the last save stands in one that the host can
 * neither write nor put back. A save writes the image that is not the last save's, and then replaces the digest in one
 * step: whenever power is lost, the digest has its image. A start takes the image that has the digest.
 *
 *     static saves s = {.images = "host", .own = "client", .sync = sync_host, .start = start_host, .host = h};
 *     if (saves_start(&s, &c) < 0)
 *         ...                              nothing can be gone on from, and nothing is begun anew
 *     ...                                  calls
 *     saves_save(&s, &c, &o);              at rest: no file open, no request pending */
#ifndef SAVES_H
#define SAVES_H

#include <stdio.h>

#include "guard_client.h"

typedef struct {
    const char *images, *own; /* the two directories, which are there */

    /* The host's part, each 0 or -1 and errno. `sync` brings its tree to the disk; one that loses nothing keeps a copy
     * of it under this digest. `start` goes back to that copy, or, where the digest is null, to the root alone. */
    int (*sync)(void *host, const uint8_t *digest);
    int (*start)(void *host, const uint8_t *digest);
    void *host;
    FILE *trace; /* where saves and loads are written (trace.h), or null */

    int next;   /* the image that the next save writes: 0 or 1 */
    int failed; /* a save has failed half way */
    uint8_t image[GUARD_IMAGE_LENGTH];
} saves;

enum { SAVES_FRESH = 0, SAVES_LOADED = 1 };

/* At power-up, with a guard that holds nothing yet; of a read-only one, with the `layer` of its client. SAVES_LOADED:
 * the tree of the last save. SAVES_FRESH: there was no save before. -1 and errno: there was one, and it cannot be gone
 * on from; EBADMSG: no image has its digest. */
int saves_start(saves *s, guard_client *c);

/* All that the guard keeps, on the disk for good once this gives 0. 1: the guard refuses it, `o` says why, and
 * nothing has changed. -1 and errno: the disk failed. Then the last save that was done is still there, what the disk
 * has of this one is not known, and every other save fails too (EIO) until the client starts again. */
int saves_save(saves *s, guard_client *c, guard_outcome *o);

#endif
