/* The file guard: files that an untrusted host keeps, and a guard that catches a host that lies.
 *
 * The guard keeps names, sizes, modes and one SHA-256 for each page of 1,024 bytes; the host keeps the pages. A client hands the guard a
 * call. The guard refuses it, answers it, or asks for something of the host; the client carries the request to the host and the reply
 * back, until the call is done:
 *
 *     static guard g;
 *     static uint8_t answer[GUARD_ANSWER_LENGTH], request[GUARD_REQUEST_LENGTH], reply[GUARD_REPLY_LENGTH];
 *     guard_fresh(&g);
 *     guard_outcome o = guard_call(&g, call, n, answer, sizeof answer, request, sizeof request);
 *     while (o.kind == GUARD_ASK) {
 *         size_t m = ask_the_host(request, o.length, reply);
 *         o = guard_reply(&g, reply, m, answer, sizeof answer, request, sizeof request);
 *     }
 *
 * A wrong reply stops the guard, for good: what it would have to believe is then not what it was told before.
 *
 * - A guard is a plain struct of bytes. It may stand anywhere, needs no alignment and holds no pointer: between two calls of these functions it may
 *   be copied or moved. Nothing else is kept: two guards know nothing of each other, and two threads may use two guards.
 * - Buffers may not overlap each other or the guard. A null pointer with length 0 is an empty one. What lies behind the bytes that are given out is
 *   not touched, and neither is the buffer that nothing is given out in.
 * - While one of these functions runs, nobody else may write what is lent to it: the guard, call, reply, answer, request, image or digest. The
 *   guard hashes bytes and then reads them again, and what changes between the two is believed. Where the host can write memory, a reply or an
 *   image is copied from there before the guard sees it, a request or an image to there afterwards: guard_client.h has functions that do.
 * - Link with -lguard (pkg-config guard). The archive is for x86-64 and asks memcpy and memset of the C library, nothing else.
 *
 * guard_client.h builds calls and replies and reads requests, so that nobody has to assemble bytes. Paragraphs that are cited are those of
 * docs/SPECIFICATION.md; docs/INTEGRATION.md is for whoever builds a host. */
#ifndef GUARD_H
#define GUARD_H

#include <stddef.h>
#include <stdint.h>

#ifdef __cplusplus
extern "C" {
#endif

#define GUARD_VERSION "1.6"

/* How the functions of these headers are compiled: inline, in each program that includes them. Whoever cannot use inline
 * functions takes libguard_client.so, which has each of them and the archive's entries as symbols (guard_exports.c,
 * ./run library). */
#ifndef GUARD_FUNCTION
#define GUARD_FUNCTION static inline
#endif

/* Limits (2.7, 3), and the lengths that follow from them. A path is "/", or components each after one "/"; a component
 * has no byte 0 and is neither "." nor "..". */
enum {
    GUARD_PAGE_LENGTH = 1024,
    GUARD_FILE_LENGTH = 65536,    /* the longest file */
    GUARD_TRANSFER_LENGTH = 4096, /* the most bytes of one read or write */
    GUARD_NAME_LENGTH = 32,       /* the longest component of a path */
    GUARD_PATH_LENGTH = 255,      /* the longest path */
    GUARD_NODES = 256,            /* files and directories, the root among them */
    GUARD_OPEN_FILES = 32,
    GUARD_PAGES = 1024,           /* pages of all files */
    GUARD_DESCRIPTORS = 1024,     /* a host's descriptors are 0 to 1,023 */
    GUARD_MAPS = 16,              /* maps that live at a time */
    GUARD_MAP_UNIT = 4096,        /* a map's address and length are multiples of it; a file's page is shorter */
    GUARD_MAP_LENGTH = 65536,     /* the longest map */
    GUARD_ID_LENGTH = 4,
    GUARD_ADDRESS_LENGTH = 8,
    GUARD_DIGEST_LENGTH = 32,

    /* the least length of an answer buffer, 9,690: the longest listing, which has an id, two bytes and a name for each
     * node but the root */
    GUARD_ANSWER_LENGTH = (GUARD_NODES - 1) * (GUARD_ID_LENGTH + 2 + GUARD_NAME_LENGTH),
    /* the longest right reply, 65,544: that to the longest map, an address and its bytes */
    GUARD_REPLY_LENGTH = GUARD_ADDRESS_LENGTH + GUARD_MAP_LENGTH,
    /* the least length of a request buffer, 1,037: a store, which is its kind, three numbers and a page */
    GUARD_REQUEST_LENGTH = 1 + 3 * 4 + GUARD_PAGE_LENGTH,
    /* the longest image, 44,776: a count and the nodes, each two ids, seven bytes and a name, of which the root has
     * none; a count and the digests */
    GUARD_IMAGE_LENGTH = 4 + GUARD_NODES * (2 * GUARD_ID_LENGTH + 7) + (GUARD_NODES - 1) * GUARD_NAME_LENGTH
        + 4 + GUARD_PAGES * GUARD_DIGEST_LENGTH,
    GUARD_MEMORY_LENGTH = 52864
};

typedef struct guard { uint8_t memory[GUARD_MEMORY_LENGTH]; } guard;

/* What comes back (1.3, 6). `length` bytes stand at the front of the answer (done), the request (ask) or the image (a save that is done). */
typedef struct { int kind; uint64_t number; size_t length; } guard_outcome;

/* The kind of an outcome. */
enum {
    GUARD_DONE = 0,    /* `number` is the call's result */
    GUARD_ASK = 1,     /* a request for the host is pending; `number` is 0 */
    GUARD_REFUSED = 2, /* nothing has changed, and a pending request still is, but for GUARD_FULL as the answer to a
                        * reply: that ends the call and its request. `number` says why, an errno value of Linux;
                        * guard_number_text speaks */
    GUARD_STOPPED = 3  /* the host's reply is wrong; `number` is the reason. From now on everything is refused GUARD_STOPPED_FOR_GOOD */
};

/* Calls (4, 6.1): one byte for the kind, then exactly these fields; numbers are little-endian, their bytes stand in brackets. A path takes the rest.
 * `handle` is what an open gave. Modes are 0 to 7, a sum of 4 read, 2 write, 1 search; rights are 1 read, 2 write, 3 both.
 *
 *                                                        done with                       asks the host for
 *     create, mkdir   mode (1), path                     the new node's id               the call itself
 *     chmod           mode (1), path                     0                               the call itself
 *     open            rights (1), path                   the handle, the file's id       the call itself
 *     close           handle (4)                         0                               close
 *     seek            handle (4), position (8)           the position                    nothing
 *     read            handle (4), count (4)              how many bytes, and the bytes   fetches
 *     write           handle (4), the bytes              how many bytes                  fetches and stores
 *     truncate        handle (4), size (8)               0                               a fetch and a store, or none, and a cut
 *     remove, rmdir   path                               0                               the call itself
 *     readdir         path                               the number of entries, and      the call itself
 *                                                        the reply's bytes
 *     stat            path                               the size, and the reply's bytes the call itself
 *     map             length (4)                         the map's address, no bytes     the call itself
 *     unmap           address (8)                        0                               the call itself
 *     rename          the first path's length (1),       0                               the call itself, or nothing
 *                     that path, the second path
 *
 * Reads and writes begin at the file's cursor, which is 0 after an open, and move it; a read ends at the end of the
 * file. A position is at most the size. A truncation to more than the size makes the file longer by zeros, and asks for
 * one cut; the cursor stays. After one to less, a cursor that stood behind the new end is at that end, unlike POSIX.
 * A read or write of no bytes and a truncation to the same size ask for nothing.
 *
 * A rename gives the node of the first path the second one, in the same directory or another. Id, mode, size and bytes
 * stay as they are, and so do the nodes beneath a directory, whose paths begin with the new one from then on. Files may
 * be open: handle, rights and cursor stay. Nothing is ever replaced, unlike POSIX. Its numbers, in this order:
 * - 22 for the form of the call and of both paths, then 36 for a path or component of either that is too long. The
 *   first path's length is not 0, and bytes are left behind that path.
 * - 20, 13 and 2 on the way of the first path, as a stat has them, then on that of the second, as a create has them.
 * - 16 where the first is the root. Done with 0, and nothing is asked for, where both paths lead to one node.
 * - 17 where the second exists, whatever it is; 22 where its parent is the first or lies beneath it; 13 for bit 2 of
 *   either parent; 36 where the path of the node, or of one beneath it, would have more than 255 bytes.
 *
 * A host whose disk is full may say so to a create, a mkdir, a store of a write and the cut of a truncation that grows
 * (below). That ends the call and its request, and the guard goes on:
 * - A write whose host has taken some of its pages is done with fewer bytes than were asked for, those up to the end of
 *   the last page that was taken; size and cursor follow them. The rest is the client's to write again.
 * - Everything else, and a write of which no page was taken, is refused GUARD_FULL, and nothing has changed.
 *
 * A map is memory that the host lends, all zeros, at an address that the host chooses: GUARD_MAP_UNIT bytes or a
 * multiple, up to GUARD_MAP_LENGTH. It lives until it is unmapped by its first address; then its room is free again.
 * Saves and loads work while maps live and leave them as they are: an image has none, and a fresh guard neither.
 * - The guard judges the reply where it lies, and keeps address and length alone. It never looks at the address itself.
 * - It judges an address by the maps that live, and knows of no other memory: a client whose own stack or heap lies in
 *   the same space compares the address with these too, before it uses the map.
 * - What was judged are the reply's bytes. Where the host can still write those at the address, they are copied in
 *   before they are used.
 *
 * Bits that a mode must have, else GUARD_BARRED (4.8, 7.6, 7.7):
 *
 *     on the way                                         1 of each directory that a component is looked up in; "/" has no component
 *     create, mkdir, remove, rmdir                       2 of the parent; none of the node itself
 *     rename                                             2 of the parent that the node has and of the one that it gets
 *     open                                               4 of the file to read, 2 to write
 *     readdir                                            4 of the directory
 *     chmod, stat                                        none of the node
 *
 * By handle the rights of the open count, else GUARD_BAD_HANDLE: 1 for a read, 2 for a write or truncation, none for
 * close and seek. A chmod does not touch them. A file is open once at a time. */
enum {
    GUARD_CREATE = 1, GUARD_MKDIR = 2, GUARD_OPEN = 3, GUARD_CLOSE = 4, GUARD_SEEK = 5, GUARD_READ = 6, GUARD_WRITE = 7,
    GUARD_TRUNCATE = 8, GUARD_REMOVE = 9, GUARD_RMDIR = 10, GUARD_CHMOD = 11, GUARD_READDIR = 12, GUARD_STAT = 13,
    GUARD_MAP = 14, GUARD_UNMAP = 15, GUARD_RENAME = 16
};

/* Requests that are not the call itself, and the right replies to each (5). A host obeys a request before it replies.
 *
 *     close      4, descriptor (4)
 *     fetch      6, descriptor (4), page (4)
 *     store      7, descriptor (4), page (4), size (4), the page's 1,024 bytes: the file then has this size
 *     cut        8, descriptor (4), size (4): the file then has this size, and zeros where it is longer than before
 *
 *     create, mkdir                                      an id (4), not 0, that no node has, and not GUARD_FULL_ID; the
 *                                                        root has 1
 *     open                                               a descriptor (4), 0 to 1,023, that no open file has
 *     close, cut, remove, rmdir, chmod, unmap, rename    a status (4), 0; a status is signed
 *     store                                              a status (4), 1,024
 *     fetch                                              the page's 1,024 bytes, zeros past the end of the file
 *     readdir                                            each child once, in any order: id (4), kind (1: 1 a file, 2 a directory),
 *                                                        length of the name (1), name
 *     stat                                               id (4), kind (1), mode (1), size (4; 0 for a directory)
 *     map                                                an address (8), not 0, a multiple of 4,096, then as many
 *                                                        bytes as were asked for, all 0; address and length together
 *                                                        are at most 2^64, and no live map is overlapped
 *
 * Where the disk is full, a create, a mkdir, a store of a write and a cut to more than the size may be answered by the
 * status (4) GUARD_FULL_STATUS, -28: the host has done nothing for this request, or has undone what it had done. To all
 * others, a store and a cut of a truncation to less among them, it is a wrong reply. */
enum { GUARD_FULL_STATUS = -28 };

/* The bytes of GUARD_FULL_STATUS, e4 ff ff ff, as an id: to a create or mkdir they never mean one. A node that has this
 * id by an image of an older guard keeps it. */
#define GUARD_FULL_ID 0xffffffe4u

enum { GUARD_FETCH = 6, GUARD_STORE = 7, GUARD_CUT = 8 };

enum { GUARD_FILE = 1, GUARD_DIRECTORY = 2 };

/* Why a call, reply, save or load is refused (7). */
enum {
    GUARD_STOPPED_FOR_GOOD = 5, /* EIO           the guard has stopped */
    GUARD_PENDING = 114,        /* EALREADY      a call, save or load while a request is pending */
    GUARD_NOT_PENDING = 61,     /* ENODATA       a reply, but no request is pending */
    GUARD_SHORT_BUFFER = 34,    /* ERANGE        the answer, request or image buffer is too short */
    GUARD_MALFORMED = 22,       /* EINVAL        the form of a call or path; a seek beyond the size; an unmap of no map;
                                 *               a rename of a directory to a path beneath itself */
    GUARD_TOO_LONG = 36,        /* ENAMETOOLONG  a component over 32 bytes, a path over 255, also one beneath a
                                 *               node that is renamed */
    GUARD_READ_ONLY = 30,       /* EROFS         a read-only guard takes no such call */
    GUARD_NOT_DIRECTORY = 20,   /* ENOTDIR       a path leads through a file; rmdir or readdir of a file */
    GUARD_BARRED = 13,          /* EACCES        the mode lacks a bit */
    GUARD_ABSENT = 2,           /* ENOENT        there is no such node */
    GUARD_PRESENT = 17,         /* EEXIST        create or mkdir of a node that is there, rename to one */
    GUARD_IS_DIRECTORY = 21,    /* EISDIR        open or remove of a directory */
    GUARD_IN_USE = 16,          /* EBUSY         the file is open; rmdir or rename of the root; save or load with open
                                 *               files */
    GUARD_NOT_EMPTY = 39,       /* ENOTEMPTY     rmdir of a directory with children */
    GUARD_TOO_MANY_OPEN = 24,   /* EMFILE        32 files are open */
    GUARD_TOO_MANY_MAPS = 12,   /* ENOMEM        16 maps live */
    GUARD_BAD_HANDLE = 9,       /* EBADF         not open, or without the right */
    GUARD_TOO_BIG = 27,         /* EFBIG         a write or truncation beyond 65,536 bytes */
    GUARD_FULL = 28,            /* ENOSPC        256 nodes; over 1,024 pages after a write or truncation; the host's
                                 *               disk is full. As the answer to a reply it ends the request */
    GUARD_WRONG_DIGEST = 74,    /* EBADMSG       a load: the image has another digest, or the digest has not 32 bytes */
    GUARD_UNSOUND_IMAGE = 84    /* EILSEQ        a load: no guard saves such an image */
};

/* Why the guard stopped: what is wrong with the host's reply (5.10). */
enum {
    GUARD_STOP_LENGTH = 1,     /* its length */
    GUARD_STOP_STATUS = 2,     /* a status that is not the right one */
    GUARD_STOP_ID = 3,         /* an id that is 0 or that a node has */
    GUARD_STOP_DESCRIPTOR = 4, /* a descriptor out of range or that an open file has */
    GUARD_STOP_PAGE = 5,       /* a page with another digest than the one that is kept */
    GUARD_STOP_STAT = 6,       /* a stat that differs from what the guard keeps */
    GUARD_STOP_LISTING = 7,    /* a listing that lacks a child, has one twice or one that is not there, or is malformed */
    GUARD_STOP_MAP = 8         /* an address that cannot be a map's or overlaps a live one, or a byte that is not 0 */
};

/* The archive's entries: what a binding of another language calls; a C program uses the functions below, which know the
 * guard's length. A slice is a pointer and a length. By the C convention of x86-64, a guard_outcome is given back through
 * memory: int (4 bytes, 4 of padding), uint64_t, size_t.
 *
 * - `memory` is any GUARD_MEMORY_LENGTH bytes or more, of no alignment; what lies behind stays as it was. Of less, every
 *   entry is refused GUARD_SHORT_BUFFER. `digest` of a save is 32 bytes.
 * - A runtime that moves memory must hold what it lends still until the entry is back. No entry calls back, allocates,
 *   blocks or keeps a pointer.
 * - A read-only guard has guard_entry_reader_call for its calls, and the other entries for all else; its memory is never
 *   handed to guard_entry_call.
 * - examples/python and examples/rust are such bindings. */
guard_outcome guard_entry_fresh(uint8_t *memory, size_t memory_length);
guard_outcome guard_entry_call(uint8_t *memory, size_t memory_length, const uint8_t *call, size_t length, uint8_t *answer,
                               size_t answer_length, uint8_t *request, size_t request_length);
guard_outcome guard_entry_reader_call(uint8_t *memory, size_t memory_length, const uint8_t *call, size_t length,
                                      uint8_t *answer, size_t answer_length, uint8_t *request, size_t request_length);
guard_outcome guard_entry_reply(uint8_t *memory, size_t memory_length, const uint8_t *reply, size_t length, uint8_t *answer,
                                size_t answer_length, uint8_t *request, size_t request_length);
guard_outcome guard_entry_save(uint8_t *memory, size_t memory_length, uint8_t *image, size_t image_length, uint8_t *digest);
guard_outcome guard_entry_load(uint8_t *memory, size_t memory_length, const uint8_t *image, size_t length, const uint8_t *digest,
                               size_t digest_length);

/* GUARD_VERSION, of whoever has compiled this: a program that calls the library's may compare the two. */
GUARD_FUNCTION const char *guard_version(void) { return GUARD_VERSION; }

/* Makes a guard of any bytes: it holds the root, a directory with id 1 and mode 7, and nothing else. A guard of zeros, as a static one is before this,
 * is a stopped one: everything is refused GUARD_STOPPED_FOR_GOOD. Of other bytes that were never made fresh little is
 * promised: each function ends, and reads and writes nothing that is not lent to it (13.1). */
GUARD_FUNCTION void guard_fresh(guard *g)
{
    (void)guard_entry_fresh(g->memory, sizeof g->memory);
}

/* A call of `length` bytes, see above. Both buffers are lent with every call and reply, and must have their least lengths. */
GUARD_FUNCTION guard_outcome guard_call(guard *g, const uint8_t *call, size_t length, uint8_t *answer, size_t answer_length,
                                        uint8_t *request, size_t request_length)
{
    return guard_entry_call(g->memory, sizeof g->memory, call, length, answer, answer_length, request, request_length);
}

/* The host's reply to the pending request. Refused GUARD_FULL, since the host's disk is full, the call is over and no
 * request is pending: another reply is refused GUARD_NOT_PENDING. Refused in any other way, the request still is. A
 * write that is done may have fewer bytes than were asked for. */
GUARD_FUNCTION guard_outcome guard_reply(guard *g, const uint8_t *reply, size_t length, uint8_t *answer, size_t answer_length,
                                         uint8_t *request, size_t request_length)
{
    return guard_entry_reply(g->memory, sizeof g->memory, reply, length, answer, answer_length, request, request_length);
}

/* Writes all that the guard keeps, but for maps, to the front of `image`, and its SHA-256 to `digest`; done with the
 * image's length. No file may be open; maps may live. Only an image that is longer than the buffer is refused
 * GUARD_SHORT_BUFFER. A save that is refused writes nothing. Once the save is done, the image may be copied anywhere, to
 * the host too. The digest must be kept where the host cannot change it: whoever chooses the digest chooses which files
 * the next guard believes in. */
GUARD_FUNCTION guard_outcome guard_save(guard *g, uint8_t *image, size_t image_length, uint8_t digest[GUARD_DIGEST_LENGTH])
{
    return guard_entry_save(g->memory, sizeof g->memory, image, image_length, digest);
}

/* Takes an image back, in place of all that the guard holds but its maps, if it has this digest: that of the last save.
 * No file may be open. Done with 0. An image that the host kept is copied to memory that the host cannot write first.
 *
 * An image's records may come in any order, but for the root's, which is the first: after a rename a node may stand
 * before its parent. Each must reach the root by its parents, all of them directories, else it is refused
 * GUARD_UNSOUND_IMAGE. An older guard refuses an image in which a node stands before its parent. */
GUARD_FUNCTION guard_outcome guard_load(guard *g, const uint8_t *image, size_t length, const uint8_t *digest, size_t digest_length)
{
    return guard_entry_load(g->memory, sizeof g->memory, image, length, digest, digest_length);
}

/* A read-only guard: for a program that shows files and can never change them, such as a display. Its client loads an
 * image that another guard has saved, with the digest of that save, and reads.
 *
 * - It takes an open with rights 1, close, seek, read, readdir and stat. Every other call, and an open with other
 *   rights, is refused GUARD_READ_ONLY, before any path or handle is looked up: an absent path is refused the same.
 *   Numbers come in this order: 5, 114, 34, 22 for the form, 36, 30, then as a guard's.
 * - In all else it is a guard: on the calls that it takes, on replies, saves and loads it gives what a guard gives, and
 *   keeps what a guard keeps. A wrong reply stops it.
 * - However long it runs, and whatever the host replies, each save that is done gives the image that was loaded last,
 *   byte for byte; where none was, a fresh guard's.
 *
 * It has a type of its own, so that the compiler tells the two apart. The functions take what a guard's take. */
typedef struct guard_reader { uint8_t memory[GUARD_MEMORY_LENGTH]; } guard_reader;

GUARD_FUNCTION void guard_reader_fresh(guard_reader *r)
{
    (void)guard_entry_fresh(r->memory, sizeof r->memory);
}

GUARD_FUNCTION guard_outcome guard_reader_call(guard_reader *r, const uint8_t *call, size_t length, uint8_t *answer,
                                               size_t answer_length, uint8_t *request, size_t request_length)
{
    return guard_entry_reader_call(r->memory, sizeof r->memory, call, length, answer, answer_length, request,
                                   request_length);
}

GUARD_FUNCTION guard_outcome guard_reader_reply(guard_reader *r, const uint8_t *reply, size_t length, uint8_t *answer,
                                                size_t answer_length, uint8_t *request, size_t request_length)
{
    return guard_entry_reply(r->memory, sizeof r->memory, reply, length, answer, answer_length, request,
                             request_length);
}

GUARD_FUNCTION guard_outcome guard_reader_save(guard_reader *r, uint8_t *image, size_t image_length,
                                               uint8_t digest[GUARD_DIGEST_LENGTH])
{
    return guard_entry_save(r->memory, sizeof r->memory, image, image_length, digest);
}

GUARD_FUNCTION guard_outcome guard_reader_load(guard_reader *r, const uint8_t *image, size_t length,
                                               const uint8_t *digest, size_t digest_length)
{
    return guard_entry_load(r->memory, sizeof r->memory, image, length, digest, digest_length);
}

#ifdef __cplusplus
}
#endif

#endif
