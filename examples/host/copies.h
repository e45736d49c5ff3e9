/* A host that loses nothing: with a copy of its tree and table for each save that a client may go on from.
 *
 * A directory has them all. `now` is what the host works on, made anew by each start. Beside it stand the copy of the
 * last save and that of the save before, each under its digest's digits. A copy is made under another name and gets its
 * own when all of it is on the disk, so whenever power is lost the copies that have such a name are whole.
 *
 * Each function gives 0, or -1 and errno: then nothing may be asked of the host before the next start. */
#ifndef COPIES_H
#define COPIES_H

#include "host.h"

enum { COPIES_PATH = 4096, COPIES_DIGITS = 2 * GUARD_DIGEST_LENGTH };

typedef struct {
    const char *place;                /* the directory, which is there */
    host *host;                       /* null before the first start */
    uint64_t budget;                  /* of the host (host_limit), from the next start on; 0: none */
    char last[COPIES_DIGITS + 1];     /* the save that was last synced or started from; no digits where there is none */
    char tree[COPIES_PATH], table[COPIES_PATH];
} copies;

/* A host over `place`, to be started. */
void copies_begin(copies *c, const char *place);

/* The tree of the save with this digest, or, where it is null, the root alone; whatever was open is closed. ENOENT
 * where there is no such copy. */
int copies_start(copies *c, const uint8_t *digest);

/* All that the host has is on the disk and kept under this digest. The copy of the save before stays, for a client that
 * dies before it has put the new digest in the place of the old one; older ones go. */
int copies_sync(copies *c, const uint8_t *digest);

void copies_end(copies *c);

#endif
