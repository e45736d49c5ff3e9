/* What a C program needs around guard.h: calls, requests and replies as functions and structs in place of bytes, the guard's numbers in
 * words, and a client layer between the guard and memory that the host can write. Header only; nothing is allocated.
 *
 *     static guard g;
 *     static guard_client c;
 *     guard_client_fresh(&c, &g);
 *     guard_outcome o = guard_client_call(&c, call, guard_mkdir_call(call, sizeof call, "/a", 7), NULL, 0);
 *     while (o.kind == GUARD_ASK)
 *         o = guard_client_reply(&c, reply, ask_the_host(c.request, o.length, reply), NULL, 0);
 *
 * Functions that build bytes get a buffer and its length and give how many bytes they have put to its front: 0 where these do not fit or a
 * field is out of range, and then nothing is written. Paragraphs that are cited are those of docs/SPECIFICATION.md. */
#ifndef GUARD_CLIENT_H
#define GUARD_CLIENT_H

#include <string.h>

#include "guard.h"

#ifdef __cplusplus
extern "C" {
#endif

enum {
    GUARD_CALL_LENGTH = 1 + 4 + GUARD_TRANSFER_LENGTH, /* the longest call: a write */
    GUARD_STAT_LENGTH = 10,
    GUARD_FILE_PAGES = GUARD_FILE_LENGTH / GUARD_PAGE_LENGTH,
    GUARD_ROOT = 1 /* the root's id */
};

enum { GUARD_RIGHT_READ = 1, GUARD_RIGHT_WRITE = 2, GUARD_RIGHT_BOTH = 3 };

enum { GUARD_MODE_READ = 4, GUARD_MODE_WRITE = 2, GUARD_MODE_SEARCH = 1, GUARD_MODE_ALL = 7 };

/* ---- numbers in bytes */

GUARD_FUNCTION void guard_put_number(uint8_t *to, uint64_t x, size_t bytes)
{
    for (size_t i = 0; i < bytes; i++)
        to[i] = (uint8_t)(x >> 8 * i);
}

GUARD_FUNCTION uint32_t guard_get_number(const uint8_t *from)
{
    return (uint32_t)from[0] | (uint32_t)from[1] << 8 | (uint32_t)from[2] << 16 | (uint32_t)from[3] << 24;
}

GUARD_FUNCTION uint64_t guard_get_long_number(const uint8_t *from)
{
    return guard_get_number(from) | (uint64_t)guard_get_number(from + 4) << 32;
}

GUARD_FUNCTION size_t guard_smaller(size_t a, size_t b) { return a < b ? a : b; }

/* A null pointer with length 0 is an empty string of bytes, which memcpy does not allow. */
GUARD_FUNCTION void guard_copy(void *to, const void *from, size_t length)
{
    if (length > 0)
        memcpy(to, from, length);
}

/* ---- calls (4.1)
 *
 * A path's form and length are left to the guard, which has a number for each (22, 36). Where the buffer has GUARD_CALL_LENGTH bytes, a 0 may be
 * handed in as a call of no bytes: the guard refuses it GUARD_MALFORMED, as it would the whole; but a path that has no room there, which is over
 * 4,000 bytes long, it would call too long. So it is with a rename's first path of more than 255 bytes: its length
 * stands in one byte. */

GUARD_FUNCTION size_t guard_path_call(uint8_t *to, size_t room, uint8_t kind, const char *path)
{
    size_t n = strlen(path);
    if (room < 1 || n > room - 1)
        return 0;
    to[0] = kind;
    guard_copy(to + 1, path, n);
    return 1 + n;
}

/* With a mode or rights, at most `most`. */
GUARD_FUNCTION size_t guard_path_call_with(uint8_t *to, size_t room, uint8_t kind, const char *path, unsigned field, unsigned most)
{
    size_t n = strlen(path);
    if (field > most || room < 2 || n > room - 2)
        return 0;
    to[0] = kind;
    to[1] = (uint8_t)field;
    guard_copy(to + 2, path, n);
    return 2 + n;
}

/* With a number of so many bytes, or none. */
GUARD_FUNCTION size_t guard_handle_call(uint8_t *to, size_t room, uint8_t kind, uint32_t handle, uint64_t x, size_t bytes)
{
    if (room < 5 + bytes)
        return 0;
    to[0] = kind;
    guard_put_number(to + 1, handle, 4);
    guard_put_number(to + 5, x, bytes);
    return 5 + bytes;
}

/* With a number alone, of so many bytes. */
GUARD_FUNCTION size_t guard_number_call(uint8_t *to, size_t room, uint8_t kind, uint64_t x, size_t bytes)
{
    if (room < 1 + bytes)
        return 0;
    to[0] = kind;
    guard_put_number(to + 1, x, bytes);
    return 1 + bytes;
}

GUARD_FUNCTION size_t guard_create_call(uint8_t *to, size_t room, const char *path, unsigned mode)
{
    return guard_path_call_with(to, room, GUARD_CREATE, path, mode, GUARD_MODE_ALL);
}

GUARD_FUNCTION size_t guard_mkdir_call(uint8_t *to, size_t room, const char *path, unsigned mode)
{
    return guard_path_call_with(to, room, GUARD_MKDIR, path, mode, GUARD_MODE_ALL);
}

GUARD_FUNCTION size_t guard_open_call(uint8_t *to, size_t room, const char *path, unsigned rights)
{
    return rights == 0 ? 0 : guard_path_call_with(to, room, GUARD_OPEN, path, rights, GUARD_RIGHT_BOTH);
}

GUARD_FUNCTION size_t guard_close_call(uint8_t *to, size_t room, uint32_t handle)
{
    return guard_handle_call(to, room, GUARD_CLOSE, handle, 0, 0);
}

GUARD_FUNCTION size_t guard_seek_call(uint8_t *to, size_t room, uint32_t handle, uint64_t position)
{
    return guard_handle_call(to, room, GUARD_SEEK, handle, position, 8);
}

GUARD_FUNCTION size_t guard_read_call(uint8_t *to, size_t room, uint32_t handle, size_t count)
{
    return count > GUARD_TRANSFER_LENGTH ? 0 : guard_handle_call(to, room, GUARD_READ, handle, count, 4);
}

GUARD_FUNCTION size_t guard_write_call(uint8_t *to, size_t room, uint32_t handle, const void *bytes, size_t length)
{
    if (length > GUARD_TRANSFER_LENGTH || room < 5 + length)
        return 0;
    guard_copy(to + guard_handle_call(to, room, GUARD_WRITE, handle, 0, 0), bytes, length);
    return 5 + length;
}

GUARD_FUNCTION size_t guard_truncate_call(uint8_t *to, size_t room, uint32_t handle, uint64_t size)
{
    return guard_handle_call(to, room, GUARD_TRUNCATE, handle, size, 8);
}

GUARD_FUNCTION size_t guard_remove_call(uint8_t *to, size_t room, const char *path) { return guard_path_call(to, room, GUARD_REMOVE, path); }
GUARD_FUNCTION size_t guard_rmdir_call(uint8_t *to, size_t room, const char *path) { return guard_path_call(to, room, GUARD_RMDIR, path); }

GUARD_FUNCTION size_t guard_chmod_call(uint8_t *to, size_t room, const char *path, unsigned mode)
{
    return guard_path_call_with(to, room, GUARD_CHMOD, path, mode, GUARD_MODE_ALL);
}

GUARD_FUNCTION size_t guard_readdir_call(uint8_t *to, size_t room, const char *path) { return guard_path_call(to, room, GUARD_READDIR, path); }
GUARD_FUNCTION size_t guard_stat_call(uint8_t *to, size_t room, const char *path) { return guard_path_call(to, room, GUARD_STAT, path); }

/* Whether a map may have this length. */
GUARD_FUNCTION int guard_is_map_length(size_t length)
{
    return length > 0 && length <= GUARD_MAP_LENGTH && length % GUARD_MAP_UNIT == 0;
}

GUARD_FUNCTION size_t guard_map_call(uint8_t *to, size_t room, size_t length)
{
    return guard_is_map_length(length) ? guard_number_call(to, room, GUARD_MAP, length, 4) : 0;
}

GUARD_FUNCTION size_t guard_unmap_call(uint8_t *to, size_t room, uint64_t address)
{
    return guard_number_call(to, room, GUARD_UNMAP, address, GUARD_ADDRESS_LENGTH);
}

/* The second path is not there yet: nothing is replaced. */
GUARD_FUNCTION size_t guard_rename_call(uint8_t *to, size_t room, const char *path, const char *new_path)
{
    size_t n = strlen(path), m = strlen(new_path);
    if (n > GUARD_PATH_LENGTH || room < 2 + n || m > room - 2 - n)
        return 0;
    to[0] = GUARD_RENAME;
    to[1] = (uint8_t)n;
    guard_copy(to + 2, path, n);
    guard_copy(to + 2 + n, new_path, m);
    return 2 + n + m;
}

/* ---- what a stat and a readdir that are done have in their answer (5.5) */

typedef struct { uint32_t id; uint8_t kind, mode; uint32_t size; } guard_stat;

/* A name has no 0 behind it, and points into the listing. */
typedef struct { uint32_t id; uint8_t kind, name_length; const char *name; } guard_dirent;

/* 1, or 0 where these bytes are no stat. */
GUARD_FUNCTION int guard_get_stat(const uint8_t *bytes, size_t length, guard_stat *s)
{
    if (length != GUARD_STAT_LENGTH)
        return 0;
    s->id = guard_get_number(bytes);
    s->kind = bytes[4];
    s->mode = bytes[5];
    s->size = guard_get_number(bytes + 6);
    return 1;
}

/* The entry that begins at `*at`, which is 0 at first and then moves behind it: 1, or 0 where no whole entry is left. */
GUARD_FUNCTION int guard_get_dirent(const uint8_t *listing, size_t length, size_t *at, guard_dirent *e)
{
    const uint8_t *from;
    if (*at > length || length - *at < 6 || length - *at - 6 < listing[*at + 5])
        return 0;
    from = listing + *at;
    e->id = guard_get_number(from);
    e->kind = from[4];
    e->name_length = from[5];
    e->name = (const char *)from + 6;
    *at += 6 + (size_t)from[5];
    return 1;
}

/* ---- paths (3) */

GUARD_FUNCTION int guard_is_name(const char *name, size_t length)
{
    if (length < 1 || length > GUARD_NAME_LENGTH || memchr(name, 0, length) || memchr(name, '/', length))
        return 0;
    return !(name[0] == '.' && (length == 1 || (length == 2 && name[1] == '.')));
}

GUARD_FUNCTION int guard_is_path(const char *path, size_t length)
{
    size_t at = 0;
    if (length < 1 || length > GUARD_PATH_LENGTH || path[0] != '/')
        return 0;
    while (length > 1 && at < length) {
        size_t from = ++at; /* behind a "/" */
        while (at < length && path[at] != '/')
            at++;
        if (!guard_is_name(path + from, at - from))
            return 0;
    }
    return 1;
}

/* ---- requests, for a host (5.1) */

/* What the kind has no field for is 0. A path has no 0 behind it; paths and page point into the request. */
typedef struct {
    int kind;
    uint8_t mode; /* of an open: its rights */
    int32_t descriptor;
    uint32_t page, size;
    uint32_t length;  /* of a map */
    uint64_t address; /* of an unmap */
    size_t path_length, new_path_length;
    const char *path, *new_path; /* the new one of a rename */
    const uint8_t *bytes; /* of a store: the page */
} guard_request;

GUARD_FUNCTION int guard_get_path(const uint8_t *bytes, size_t length, guard_request *r)
{
    r->path = (const char *)bytes;
    r->path_length = length;
    return guard_is_path(r->path, length);
}

GUARD_FUNCTION int guard_get_mode_and_path(const uint8_t *bytes, size_t length, guard_request *r)
{
    int is_open = r->kind == GUARD_OPEN;
    if (length < 1 || (is_open && bytes[0] < GUARD_RIGHT_READ) || bytes[0] > (is_open ? GUARD_RIGHT_BOTH : (int)GUARD_MODE_ALL))
        return 0;
    r->mode = bytes[0];
    return guard_get_path(bytes + 1, length - 1, r);
}

GUARD_FUNCTION int guard_get_descriptor(const uint8_t *bytes, size_t length, guard_request *r)
{
    int paged = r->kind == GUARD_FETCH || r->kind == GUARD_STORE, sized = r->kind == GUARD_CUT || r->kind == GUARD_STORE;
    size_t n = 4 + (paged ? 4U : 0U) + (sized ? 4U : 0U);
    if (length != n + (r->kind == GUARD_STORE ? (size_t)GUARD_PAGE_LENGTH : 0) || guard_get_number(bytes) >= GUARD_DESCRIPTORS)
        return 0;
    r->descriptor = (int32_t)guard_get_number(bytes);
    r->page = paged ? guard_get_number(bytes + 4) : 0;
    r->size = sized ? guard_get_number(bytes + n - 4) : 0;
    r->bytes = r->kind == GUARD_STORE ? bytes + n : NULL;
    return r->page < GUARD_FILE_PAGES && r->size <= GUARD_FILE_LENGTH;
}

GUARD_FUNCTION int guard_get_map(const uint8_t *bytes, size_t length, guard_request *r)
{
    r->length = length == 4 ? guard_get_number(bytes) : 0;
    return guard_is_map_length(r->length);
}

/* Where a map that the guard has taken may begin. */
GUARD_FUNCTION int guard_get_unmap(const uint8_t *bytes, size_t length, guard_request *r)
{
    r->address = length == GUARD_ADDRESS_LENGTH ? guard_get_long_number(bytes) : 0;
    return r->address > 0 && r->address % GUARD_MAP_UNIT == 0;
}

GUARD_FUNCTION int guard_get_rename(const uint8_t *bytes, size_t length, guard_request *r)
{
    if (length < 1 || bytes[0] > length - 1)
        return 0;
    r->new_path = (const char *)bytes + 1 + bytes[0];
    r->new_path_length = length - 1 - bytes[0];
    return guard_get_path(bytes + 1, bytes[0], r) && guard_is_path(r->new_path, r->new_path_length);
}

/* 1, or 0 where no guard sends these bytes: then only the kind can be relied upon. */
GUARD_FUNCTION int guard_get_request(const uint8_t *bytes, size_t length, guard_request *r)
{
    memset(r, 0, sizeof *r);
    if (length < 1)
        return 0;
    r->kind = bytes[0];
    switch (r->kind) {
    case GUARD_CREATE: case GUARD_MKDIR: case GUARD_OPEN: case GUARD_CHMOD: return guard_get_mode_and_path(bytes + 1, length - 1, r);
    case GUARD_REMOVE: case GUARD_RMDIR: case GUARD_READDIR: case GUARD_STAT: return guard_get_path(bytes + 1, length - 1, r);
    case GUARD_CLOSE: case GUARD_FETCH: case GUARD_STORE: case GUARD_CUT: return guard_get_descriptor(bytes + 1, length - 1, r);
    case GUARD_MAP: return guard_get_map(bytes + 1, length - 1, r);
    case GUARD_UNMAP: return guard_get_unmap(bytes + 1, length - 1, r);
    case GUARD_RENAME: return guard_get_rename(bytes + 1, length - 1, r);
    default: return 0;
    }
}

/* ---- replies, for a host (5.5)
 *
 * A host that cannot obey replies what is wrong: a negative status or descriptor, the id 0. So values are not judged
 * here. One that lacks room has guard_full_reply, where a call may end by it. */

GUARD_FUNCTION size_t guard_status_reply(uint8_t *to, size_t room, int32_t status)
{
    if (room < 4)
        return 0;
    guard_put_number(to, (uint32_t)status, 4);
    return 4;
}

GUARD_FUNCTION size_t guard_descriptor_reply(uint8_t *to, size_t room, int32_t descriptor) { return guard_status_reply(to, room, descriptor); }

GUARD_FUNCTION size_t guard_id_reply(uint8_t *to, size_t room, uint32_t id)
{
    if (room < 4)
        return 0;
    guard_put_number(to, id, 4);
    return 4;
}

/* Whether a host may give a new node this id, as far as the number alone says. */
GUARD_FUNCTION int guard_is_new_id(uint32_t id) { return id != 0 && id != GUARD_ROOT && id != GUARD_FULL_ID; }

/* The disk is full, and nothing is done for this request: to a create, a mkdir, a store of a write and a cut that
 * grows. To anything else it is wrong, and so it is for a host that has kept a part of what it was asked for. */
GUARD_FUNCTION size_t guard_full_reply(uint8_t *to, size_t room)
{
    return guard_status_reply(to, room, GUARD_FULL_STATUS);
}

/* As many bytes of the page as the file has, and zeros behind them. */
GUARD_FUNCTION size_t guard_page_reply(uint8_t *to, size_t room, const void *bytes, size_t length)
{
    if (length > GUARD_PAGE_LENGTH || room < GUARD_PAGE_LENGTH)
        return 0;
    guard_copy(to, bytes, length);
    memset(to + length, 0, GUARD_PAGE_LENGTH - length);
    return GUARD_PAGE_LENGTH;
}

/* A map's address and its bytes, which are all 0 where the host is honest. */
GUARD_FUNCTION size_t guard_map_reply(uint8_t *to, size_t room, uint64_t address, const void *bytes, size_t length)
{
    if (length > GUARD_MAP_LENGTH || room < GUARD_ADDRESS_LENGTH + length)
        return 0;
    guard_put_number(to, address, GUARD_ADDRESS_LENGTH);
    guard_copy(to + GUARD_ADDRESS_LENGTH, bytes, length);
    return GUARD_ADDRESS_LENGTH + length;
}

GUARD_FUNCTION size_t guard_stat_reply(uint8_t *to, size_t room, const guard_stat *s)
{
    if (room < GUARD_STAT_LENGTH)
        return 0;
    guard_put_number(to, s->id, 4);
    to[4] = s->kind;
    to[5] = s->mode;
    guard_put_number(to + 6, s->size, 4);
    return GUARD_STAT_LENGTH;
}

/* One entry more behind the `length` bytes that the listing has: how long it is then. An empty directory's has none and no bytes. */
GUARD_FUNCTION size_t guard_dirent_reply(uint8_t *listing, size_t room, size_t length, const guard_dirent *e)
{
    uint8_t *to;
    if (length > room || room - length < 6 + (size_t)e->name_length || e->name_length < 1 || e->name_length > GUARD_NAME_LENGTH)
        return 0;
    to = listing + length;
    guard_put_number(to, e->id, 4);
    to[4] = e->kind;
    to[5] = e->name_length;
    guard_copy(to + 6, e->name, e->name_length);
    return length + 6 + e->name_length;
}

/* ---- in words: never null, and nothing to be freed */

/* The number of a refusal (7.1): its word in the requirements, and what it says. */
GUARD_FUNCTION const char *guard_number_text(uint64_t number)
{
    switch (number) {
    case GUARD_STOPPED_FOR_GOOD: return "stopped: a reply was wrong, and the guard works no more";
    case GUARD_PENDING: return "busy: a request is pending";
    case GUARD_NOT_PENDING: return "unasked: no request is pending";
    case GUARD_SHORT_BUFFER: return "short: a lent buffer is too short";
    case GUARD_MALFORMED: return "malformed: the form of the call or path; a seek, unmap or rename to no such place";
    case GUARD_TOO_LONG: return "long: a component over 32 bytes or a path over 255";
    case GUARD_READ_ONLY: return "read-only: a read-only guard takes no such call";
    case GUARD_NOT_DIRECTORY: return "no folder: a file where a directory is needed";
    case GUARD_BARRED: return "barred: the mode lacks a bit";
    case GUARD_ABSENT: return "absent: there is no such file or directory";
    case GUARD_PRESENT: return "present: the name exists";
    case GUARD_IS_DIRECTORY: return "folder: a directory where a file is needed";
    case GUARD_IN_USE: return "in use: the file is open, some file is, or it is the root";
    case GUARD_NOT_EMPTY: return "not empty: the directory has children";
    case GUARD_TOO_MANY_OPEN: return "handles: 32 files are open";
    case GUARD_TOO_MANY_MAPS: return "maps: 16 maps live";
    case GUARD_BAD_HANDLE: return "handle: not open, or without the right";
    case GUARD_TOO_BIG: return "too big: a file has at most 65,536 bytes";
    case GUARD_FULL: return "full: at most 256 nodes and 1,024 pages, or the host's disk is";
    case GUARD_WRONG_DIGEST: return "seal: the image has another digest";
    case GUARD_UNSOUND_IMAGE: return "image: no guard saves such an image";
    default: return "no number of the guard";
    }
}

/* The reason of a stop (5.10). */
GUARD_FUNCTION const char *guard_stop_text(uint64_t reason)
{
    switch (reason) {
    case GUARD_STOP_LENGTH: return "length: the reply has the wrong one";
    case GUARD_STOP_STATUS: return "status: not the right one";
    case GUARD_STOP_ID: return "id: 0, or a node has it";
    case GUARD_STOP_DESCRIPTOR: return "descriptor: out of range, or an open file has it";
    case GUARD_STOP_PAGE: return "page: not the one that the file has";
    case GUARD_STOP_STAT: return "stat: not the node's";
    case GUARD_STOP_LISTING: return "listing: not what the directory holds";
    case GUARD_STOP_MAP: return "map: its address cannot be had, or a byte is not zero";
    default: return "no reason of the guard";
    }
}

GUARD_FUNCTION const char *guard_call_name(int kind)
{
    switch (kind) {
    case GUARD_CREATE: return "create";
    case GUARD_MKDIR: return "mkdir";
    case GUARD_OPEN: return "open";
    case GUARD_CLOSE: return "close";
    case GUARD_SEEK: return "seek";
    case GUARD_READ: return "read";
    case GUARD_WRITE: return "write";
    case GUARD_TRUNCATE: return "truncate";
    case GUARD_REMOVE: return "remove";
    case GUARD_RMDIR: return "rmdir";
    case GUARD_CHMOD: return "chmod";
    case GUARD_READDIR: return "readdir";
    case GUARD_STAT: return "stat";
    case GUARD_MAP: return "map";
    case GUARD_UNMAP: return "unmap";
    case GUARD_RENAME: return "rename";
    default: return "no call";
    }
}

GUARD_FUNCTION const char *guard_request_name(int kind)
{
    switch (kind) {
    case GUARD_FETCH: return "fetch";
    case GUARD_STORE: return "store";
    case GUARD_CUT: return "cut";
    case GUARD_SEEK: return "no request";
    default: return kind < GUARD_CREATE || kind > GUARD_RENAME ? "no request" : guard_call_name(kind);
    }
}

GUARD_FUNCTION const char *guard_outcome_name(int kind)
{
    switch (kind) {
    case GUARD_DONE: return "done";
    case GUARD_ASK: return "ask";
    case GUARD_REFUSED: return "refused";
    case GUARD_STOPPED: return "stopped";
    default: return "no outcome";
    }
}

/* ---- the client layer
 *
 * While an entry of the guard runs, nobody else may write what is lent to it: the guard hashes bytes and then reads them again. Where the host
 * can write the buffer of a reply, a request or an image (memory that two processes share, or memory outside an enclave), it could change a page
 * between the two, and be believed. So what comes from the host is copied to memory of the client's own before the guard sees it, and what goes
 * to the host is copied out afterwards. The guard, this struct, calls and digests stand where the host cannot write. */
typedef struct guard_client {
    guard *g;
    uint64_t reason;                       /* why the guard stopped; 0 where it has not */
    size_t request_length;                 /* of the request that is pending, or whose reply was wrong; 0 where there is none */
    uint8_t request[GUARD_REQUEST_LENGTH]; /* that request */
    uint8_t answer[GUARD_ANSWER_LENGTH];   /* the bytes of a call that is done: `length` of its outcome says how many */
    uint8_t copy[GUARD_REPLY_LENGTH + 1];  /* a reply or an image, and one byte by which it may be too long */
} guard_client;

/* A client with a fresh guard. */
GUARD_FUNCTION void guard_client_fresh(guard_client *c, guard *g)
{
    guard_fresh(g);
    c->g = g;
    c->reason = 0;
    c->request_length = 0;
}

/* Copies what the host has to `copy`, at most `longest` bytes: of more than that, whatever the host claims, as one byte too many. */
GUARD_FUNCTION size_t guard_client_copy(guard_client *c, const uint8_t *from, size_t length, size_t longest)
{
    guard_copy(c->copy, from, guard_smaller(length, longest));
    c->copy[longest] = 0;
    return guard_smaller(length, longest + 1);
}

/* The request buffer that the guard is lent: where the host's is too short, so is this one, and the guard says so. */
GUARD_FUNCTION size_t guard_client_room(const uint8_t *request, size_t room)
{
    return request ? guard_smaller(room, GUARD_REQUEST_LENGTH) : (size_t)GUARD_REQUEST_LENGTH;
}

/* Whether no request is pending any more: the call is done, or a full disk has ended it. */
GUARD_FUNCTION int guard_client_is_over(guard_outcome o)
{
    return o.kind == GUARD_DONE || (o.kind == GUARD_REFUSED && o.number == GUARD_FULL);
}

/* Keeps what an outcome says, and copies a request out. */
GUARD_FUNCTION guard_outcome guard_client_keep(guard_client *c, guard_outcome o, uint8_t *request)
{
    if (o.kind == GUARD_ASK && request)
        memcpy(request, c->request, o.length);
    if (o.kind == GUARD_STOPPED)
        c->reason = o.number;
    if (o.kind == GUARD_ASK || guard_client_is_over(o))
        c->request_length = o.kind == GUARD_ASK ? o.length : 0;
    return o;
}

/* A call by one of the two entries for calls. */
typedef guard_outcome guard_call_entry(uint8_t *memory, size_t memory_length, const uint8_t *call, size_t length,
    uint8_t *answer, size_t answer_length, uint8_t *request, size_t request_length);

GUARD_FUNCTION guard_outcome guard_client_enter(guard_client *c, guard_call_entry *entry, const uint8_t *call,
    size_t length, uint8_t *request, size_t room)
{
    guard_outcome o = entry(c->g->memory, sizeof c->g->memory, call, length, c->answer, sizeof c->answer,
        c->request, guard_client_room(request, room));
    return guard_client_keep(c, o, request);
}

/* A call. A request is copied to the front of `request`, which the host may write, with at least GUARD_REQUEST_LENGTH bytes; where that is null,
 * it stands in c->request alone. */
GUARD_FUNCTION guard_outcome guard_client_call(guard_client *c, const uint8_t *call, size_t length, uint8_t *request, size_t room)
{
    return guard_client_enter(c, guard_entry_call, call, length, request, room);
}

/* The host's reply, in memory that the host may write. Refused GUARD_FULL, the call is over: c->request_length is 0.
 * Of a reply that is claimed to be longer than GUARD_REPLY_LENGTH, as many bytes are read, and the guard is told that
 * it is too long. */
GUARD_FUNCTION guard_outcome guard_client_reply(guard_client *c, const uint8_t *reply, size_t length, uint8_t *request, size_t room)
{
    size_t n = guard_client_copy(c, reply, length, GUARD_REPLY_LENGTH);
    guard_outcome o = guard_reply(c->g, c->copy, n, c->answer, sizeof c->answer, c->request, guard_client_room(request, room));
    return guard_client_keep(c, o, request);
}

/* A save whose image goes to memory that the host may write. The digest may not lie there. */
GUARD_FUNCTION guard_outcome guard_client_save(guard_client *c, uint8_t *image, size_t room, uint8_t digest[GUARD_DIGEST_LENGTH])
{
    guard_outcome o = guard_save(c->g, c->copy, guard_smaller(room, GUARD_IMAGE_LENGTH), digest);
    if (o.kind == GUARD_DONE)
        memcpy(image, c->copy, o.length);
    return o;
}

/* A load of an image in memory that the host may write. Of one that is claimed to be longer than GUARD_IMAGE_LENGTH, as many bytes are read; it
 * is no save's, and refused GUARD_WRONG_DIGEST. */
GUARD_FUNCTION guard_outcome guard_client_load(guard_client *c, const uint8_t *image, size_t length, const uint8_t *digest, size_t digest_length)
{
    size_t n = guard_client_copy(c, image, length, GUARD_IMAGE_LENGTH);
    return guard_load(c->g, c->copy, n, digest, digest_length);
}

/* ---- the client layer of a read-only guard
 *
 * What is kept and given out stands where a guard_client has it: r->layer.answer, .request, .request_length, .reason.
 * Only these functions are used on it: guard_client_call on `layer` would let calls through that change something. */
typedef struct guard_reader_client { guard_client layer; } guard_reader_client;

GUARD_FUNCTION void guard_reader_client_fresh(guard_reader_client *r, guard_reader *g)
{
    guard_client_fresh(&r->layer, (guard *)(void *)g); /* the same bytes, and nothing but bytes */
}

GUARD_FUNCTION guard_outcome guard_reader_client_call(guard_reader_client *r, const uint8_t *call, size_t length,
    uint8_t *request, size_t room)
{
    return guard_client_enter(&r->layer, guard_entry_reader_call, call, length, request, room);
}

GUARD_FUNCTION guard_outcome guard_reader_client_reply(guard_reader_client *r, const uint8_t *reply, size_t length,
    uint8_t *request, size_t room)
{
    return guard_client_reply(&r->layer, reply, length, request, room);
}

GUARD_FUNCTION guard_outcome guard_reader_client_save(guard_reader_client *r, uint8_t *image, size_t room,
    uint8_t digest[GUARD_DIGEST_LENGTH])
{
    return guard_client_save(&r->layer, image, room, digest);
}

GUARD_FUNCTION guard_outcome guard_reader_client_load(guard_reader_client *r, const uint8_t *image, size_t length,
    const uint8_t *digest, size_t digest_length)
{
    return guard_client_load(&r->layer, image, length, digest, digest_length);
}

#ifdef __cplusplus
}
#endif

#endif
