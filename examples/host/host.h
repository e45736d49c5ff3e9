/* A host for the guard over a directory of this machine: it obeys the guard's requests and replies truly
 * (include/guard.h has both, byte by byte; guard_client.h reads and builds them).
 *
 * The disk holds names, kinds, sizes and bytes, as ordinary files that anyone may read. Ids and modes stand in a
 * table of the host's own (table.h), in a file beside the directory: files are opened for reading and writing
 * whatever their mode, since the guard is the one who judges rights. Maps are memory of the host's process and end
 * with it. A host that was killed and is started again replies what the disk says.
 *
 * A full disk (ENOSPC, EDQUOT) is told as GUARD_FULL_STATUS where the guard takes it, after the host has undone its
 * part: a new node is removed, a file has its size and its page's bytes again. What cannot be undone, a disk that is
 * full elsewhere, and what an honest host never meets, a file that is gone, are replied as failures: the guard
 * stops. */
#ifndef HOST_H
#define HOST_H

#include <stddef.h>
#include <stdint.h>

#include "guard_client.h"

enum { HOST_REPLY_LENGTH = GUARD_REPLY_LENGTH, HOST_NODE_ROOM = 256 };

typedef struct host host;

/* A host over the directory `tree`, which is made where it is not there, and the file `table_file`, whose name must
 * stay where it is. Null and errno where it cannot be; EBADMSG: the table is damaged, or the tree has nodes and no
 * table. */
host *host_open(const char *tree, const char *table_file);

/* A disk of so many bytes, whatever the machine's has: each node takes HOST_NODE_ROOM, each file its size besides. What
 * would go beyond is answered as by a full disk. 0: no bound of its own, as after host_open. */
void host_limit(host *h, uint64_t budget);

void host_close(host *h);

/* Obeys a request; the reply's length. */
size_t host_reply(host *h, const uint8_t *request, size_t length, uint8_t reply[HOST_REPLY_LENGTH]);

/* Waits until all is on the disk: before a save, so that an image never knows of pages that a power loss takes away.
 * 0, or -1 and errno. */
int host_sync(host *h);

#endif
