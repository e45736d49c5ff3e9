#define _GNU_SOURCE /* syncfs, O_PATH */
#include "host.h"

#include <dirent.h>
#include <errno.h>
#include <fcntl.h>
#include <stdio.h>
#include <stdlib.h>
#include <string.h>
#include <sys/mman.h>
#include <sys/stat.h>
#include <unistd.h>

#include "table.h"
#include "whole.h"

typedef struct { void *at; size_t length; } map; /* null: none */

struct host {
    int tree;                     /* the directory */
    int files[GUARD_DESCRIPTORS]; /* this machine's file descriptor behind each of ours, or -1 */
    map maps[GUARD_MAPS];
    uint64_t budget; /* how many bytes nodes and files may take; 0: as many as the disk has */
    table table;
};

/* A request taken apart, its paths with a 0 behind each. */
typedef guard_request request;

/* ---- replies */

static size_t status_reply(uint8_t *reply, int32_t x) { return guard_status_reply(reply, HOST_REPLY_LENGTH, x); }

/* The right reply to nothing: a status that is not asked for, a descriptor below 0, too short for a page, a stat or
 * an entry. */
static size_t failed(uint8_t *reply) { return status_reply(reply, errno > 0 ? -errno : -EIO); }

/* The same for create and mkdir, where every number but 0 might be an id. */
static size_t no_id(uint8_t *reply) { return guard_id_reply(reply, HOST_REPLY_LENGTH, 0); }

/* Whether there is no room: the disk's end, or that of what this user may have. */
static int is_full(void) { return errno == ENOSPC || errno == EDQUOT; }

/* The end of a request that a full disk may end: it is told where nothing is left done. Where that could not be undone,
 * no reply is right. */
static size_t ended(uint8_t *reply, int is_undone)
{
    if (is_full() && is_undone)
        return guard_full_reply(reply, HOST_REPLY_LENGTH);
    if (is_full())
        errno = EIO;
    return failed(reply);
}

/* ---- nodes by path */

/* The directory that the last component of a path stands in, open, and that component. No symbolic link is followed
 * on the way: the guard knows of none, and one that came to the disk may lead anywhere. */
static int reach(const host *h, const char *path, const char **name)
{
    char part[GUARD_NAME_LENGTH + 1];
    int at = whole_open(h->tree, ".", O_PATH | O_DIRECTORY), next;
    path++; /* behind the first "/" */
    for (const char *slash; at >= 0 && (slash = strchr(path, '/')); path = slash + 1, at = next) {
        snprintf(part, sizeof part, "%.*s", (int)(slash - path), path);
        next = whole_open(at, part, O_PATH | O_DIRECTORY | O_NOFOLLOW);
        whole_leave(at);
    }
    *name = *path ? path : ".";
    return at;
}

static int open_node(const host *h, const char *path, int flags)
{
    const char *name;
    int at = reach(h, path, &name), file = at < 0 ? -1 : whole_open(at, name, flags | O_NOFOLLOW);
    whole_leave(at);
    return file;
}

static int look(const host *h, const char *path, struct stat *s)
{
    const char *name;
    int at = reach(h, path, &name), status = at < 0 ? -1 : fstatat(at, name, s, AT_SYMLINK_NOFOLLOW);
    whole_leave(at);
    return status;
}

/* The row of a node that is on the disk. One that came there without us, or as we were killed, has none: it gets a
 * row now. */
static table_row *row_of(host *h, const char *path)
{
    table_row *row = table_find(&h->table, path);
    return row ? row : table_add(&h->table, path, 0);
}

/* ---- room */

/* What the nodes take: HOST_NODE_ROOM each, and the bytes of files. */
static uint64_t taken(const host *h)
{
    struct stat s;
    uint64_t sum = 0;
    for (size_t i = 0; i < h->table.count; i++)
        if (!look(h, h->table.rows[i].path, &s))
            sum += HOST_NODE_ROOM + (S_ISREG(s.st_mode) ? (uint64_t)s.st_size : 0);
    return sum;
}

/* Whether so many bytes more are within the budget: 0, or -1 and errno, as a full disk has it. */
static int has_room(const host *h, uint64_t more)
{
    if (h->budget == 0 || more == 0 || taken(h) + more <= h->budget)
        return 0;
    errno = ENOSPC;
    return -1;
}

/* ---- nodes that come and go */

static uint8_t kind_of(const struct stat *s)
{
    return S_ISREG(s->st_mode) ? GUARD_FILE : S_ISDIR(s->st_mode) ? GUARD_DIRECTORY : 0;
}

static int unlink_node(host *h, const char *path, int flag)
{
    const char *name;
    int at = reach(h, path, &name), status = at < 0 ? -1 : unlinkat(at, name, flag);
    whole_leave(at);
    return status;
}

/* A new node could not be told: a full disk is told where the node can be taken back, and anything else by no id. A row
 * that has come to the disk without its node may stay there: the next start forgets it. */
static size_t take_back(host *h, const request *r, int flag, uint8_t *reply)
{
    int full = is_full();
    table_remove(&h->table, r->path);
    return full && !unlink_node(h, r->path, flag) ? guard_full_reply(reply, HOST_REPLY_LENGTH) : no_id(reply);
}

/* The disk has a new node: its id. */
static size_t added(host *h, const request *r, int flag, uint8_t *reply)
{
    table_remove(&h->table, r->path);
    const table_row *row = table_add(&h->table, r->path, r->mode);
    if (!row || table_write(&h->table))
        return take_back(h, r, flag, reply);
    return guard_id_reply(reply, HOST_REPLY_LENGTH, row->id);
}

/* Nothing was made. */
static size_t not_made(uint8_t *reply) { return is_full() ? guard_full_reply(reply, HOST_REPLY_LENGTH) : no_id(reply); }

static size_t create(host *h, const request *r, uint8_t *reply)
{
    int file = has_room(h, HOST_NODE_ROOM) ? -1 : open_node(h, r->path, O_RDWR | O_CREAT | O_EXCL);
    whole_leave(file);
    return file < 0 ? not_made(reply) : added(h, r, 0, reply);
}

static size_t make_directory(host *h, const request *r, uint8_t *reply)
{
    const char *name;
    int at = has_room(h, HOST_NODE_ROOM) ? -1 : reach(h, r->path, &name);
    int status = at < 0 ? -1 : mkdirat(at, name, 0700);
    whole_leave(at);
    return status ? not_made(reply) : added(h, r, AT_REMOVEDIR, reply);
}

/* The end of a request by which rows have gone. On a full disk the table stays as it is there: a row without its node
 * does no harm, and the next start drops it. */
static size_t forgotten(host *h, uint8_t *reply)
{
    return table_write(&h->table) && !is_full() ? failed(reply) : status_reply(reply, 0);
}

static size_t removed(host *h, const request *r, int flag, uint8_t *reply)
{
    if (unlink_node(h, r->path, flag))
        return failed(reply);
    table_remove(&h->table, r->path);
    return forgotten(h, reply);
}

/* Waits until the names in a directory are on the disk. */
static int sync_names(int directory)
{
    int file = whole_open(directory, ".", O_RDONLY | O_DIRECTORY);
    int status = file < 0 ? -1 : whole_sync(file);
    whole_leave(file);
    return status;
}

/* Files that are open go on: this machine's descriptors know no path. */
static int move_node(const host *h, const char *path, const char *new_path)
{
    const char *name, *new_name;
    int from = reach(h, path, &name), to = from < 0 ? -1 : reach(h, new_path, &new_name);
    int status = to < 0 || whole_move(from, name, to, new_name) || sync_names(from) || sync_names(to) ? -1 : 0;
    whole_leave(from);
    whole_leave(to);
    return status;
}

/* Whenever power is lost, the nodes have their ids and modes wherever the disk has them: the table has both paths
 * before the rename, and the old ones go after it is on the disk. */
static size_t renamed(host *h, const request *r, uint8_t *reply)
{
    table_remove_all(&h->table, r->new_path);
    if (table_copy(&h->table, r->path, r->new_path) || table_write(&h->table)
        || move_node(h, r->path, r->new_path)) {
        table_remove_all(&h->table, r->new_path);
        return failed(reply);
    }
    table_remove_all(&h->table, r->path);
    return forgotten(h, reply);
}

static size_t change_mode(host *h, const request *r, uint8_t *reply)
{
    struct stat s;
    table_row *row;
    if (look(h, r->path, &s) || !(row = row_of(h, r->path)))
        return failed(reply);
    row->mode = r->mode;
    return table_write(&h->table) ? failed(reply) : status_reply(reply, 0);
}

static size_t stat_node(host *h, const request *r, uint8_t *reply)
{
    struct stat s;
    const table_row *row;
    if (look(h, r->path, &s) || !(row = row_of(h, r->path)))
        return failed(reply);
    uint32_t size = S_ISDIR(s.st_mode) ? 0 : s.st_size > UINT32_MAX ? UINT32_MAX : (uint32_t)s.st_size;
    guard_stat node = {row->id, kind_of(&s), row->mode, size};
    return guard_stat_reply(reply, HOST_REPLY_LENGTH, &node);
}

/* ---- listings */

/* One entry of a directory put behind those of a listing: its length then, or 0 where it cannot be. */
static size_t put_entry(host *h, const char *directory, DIR *d, const char *name, uint8_t *reply, size_t listed)
{
    char path[GUARD_PATH_LENGTH + 1];
    struct stat s;
    const table_row *row;
    int length = snprintf(path, sizeof path, "%s/%s", directory[1] ? directory : "", name);
    if (length < 0 || (size_t)length >= sizeof path)
        return 0;
    if (fstatat(dirfd(d), name, &s, AT_SYMLINK_NOFOLLOW) || !(row = row_of(h, path)))
        return 0;
    guard_dirent e = {row->id, kind_of(&s), (uint8_t)strlen(name), name}; /* a name of the disk has at most 255 bytes */
    return guard_dirent_reply(reply, HOST_REPLY_LENGTH, listed, &e);
}

static size_t put_entries(host *h, const char *path, DIR *d, uint8_t *reply)
{
    size_t length = 0;
    errno = 0; /* which alone tells the end of a directory from one that cannot be read on */
    for (struct dirent *e; (e = readdir(d)); errno = 0) {
        if (!strcmp(e->d_name, ".") || !strcmp(e->d_name, ".."))
            continue;
        if ((length = put_entry(h, path, d, e->d_name, reply, length)) == 0)
            return failed(reply);
    }
    return errno ? failed(reply) : length;
}

/* Takes an open directory over, or closes it. */
static DIR *entries_of(int file)
{
    DIR *d = NULL;
    int tries = 0;
    while (file >= 0 && !(d = fdopendir(file)) && whole_again(&tries))
        ;
    if (!d)
        whole_leave(file);
    return d;
}

static size_t list(host *h, const request *r, uint8_t *reply)
{
    DIR *d = entries_of(open_node(h, r->path, O_RDONLY | O_DIRECTORY));
    if (!d)
        return failed(reply);
    size_t length = put_entries(h, r->path, d, reply);
    closedir(d);
    return length;
}

/* ---- open files */

static size_t open_file(host *h, const request *r, uint8_t *reply)
{
    int d = 0;
    while (d < GUARD_DESCRIPTORS && h->files[d] >= 0)
        d++;
    if (d == GUARD_DESCRIPTORS)
        return status_reply(reply, -EMFILE);
    h->files[d] = open_node(h, r->path, O_RDWR);
    return h->files[d] < 0 ? failed(reply) : status_reply(reply, d);
}

static int file_of(const host *h, const request *r) { return h->files[r->descriptor]; }

/* Linux has closed a file whatever it says; where it was only interrupted, nothing is lost. */
static size_t close_file(host *h, const request *r, uint8_t *reply)
{
    int file = file_of(h, r);
    h->files[r->descriptor] = -1;
    return close(file) && errno != EINTR ? failed(reply) : status_reply(reply, 0);
}

static size_t fetch(host *h, const request *r, uint8_t *reply)
{
    memset(reply, 0, GUARD_PAGE_LENGTH);
    ssize_t n = whole_read(file_of(h, r), reply, GUARD_PAGE_LENGTH, (off_t)r->page * GUARD_PAGE_LENGTH);
    return n < 0 ? failed(reply) : GUARD_PAGE_LENGTH;
}

/* What a request may change of a file, as it was: its size, and of one page the bytes that it had. */
typedef struct { off_t size, at; size_t length; uint8_t page[GUARD_PAGE_LENGTH]; } before;

static int remember_size(int file, before *b)
{
    struct stat s;
    int status = fstat(file, &s);
    b->size = status ? 0 : s.st_size;
    b->at = 0;
    b->length = 0;
    return status;
}

static int remember_page(int file, uint32_t page, before *b)
{
    off_t at = (off_t)page * GUARD_PAGE_LENGTH;
    ssize_t n = remember_size(file, b) ? -1 : whole_read(file, b->page, sizeof b->page, at);
    b->at = at;
    b->length = n < 0 ? 0 : (size_t)n;
    return n < 0 ? -1 : 0;
}

/* Whether all is as before; errno stays. What is written over stands where the disk has room for it already. */
static int put_back(int file, const before *b)
{
    int kept = errno, status = whole_write(file, b->page, b->length, b->at) || whole_cut(file, b->size);
    errno = kept;
    return !status;
}

static uint64_t growth(off_t from, off_t to) { return to > from ? (uint64_t)(to - from) : 0; }

/* A page is written as far as the file then reaches, so that the disk has no zeros behind its end. */
static int put_page(int file, const request *r, const before *b)
{
    off_t end = b->at + GUARD_PAGE_LENGTH < r->size ? b->at + GUARD_PAGE_LENGTH : r->size;
    if (end > b->at && whole_write(file, r->bytes, (size_t)(end - b->at), b->at))
        return -1;
    return whole_cut(file, r->size);
}

/* One of a truncation looks the same, but it writes over what the disk has and needs no room. */
static size_t store(host *h, const request *r, uint8_t *reply)
{
    int file = file_of(h, r);
    before b;
    if (remember_page(file, r->page, &b))
        return failed(reply);
    if (has_room(h, growth(b.size, r->size)))
        return ended(reply, 1);
    return put_page(file, r, &b) ? ended(reply, put_back(file, &b)) : status_reply(reply, GUARD_PAGE_LENGTH);
}

/* What a cut adds is taken from the disk at once: a page that is only promised might lack its room when a truncation
 * stores it, which no full disk may end. */
static int change_size(int file, off_t from, off_t to)
{
    return whole_cut(file, to) || (to > from && whole_reserve(file, from, to - from)) ? -1 : 0;
}

static size_t cut(host *h, const request *r, uint8_t *reply)
{
    int file = file_of(h, r);
    before b;
    if (remember_size(file, &b))
        return failed(reply);
    if (has_room(h, growth(b.size, r->size)))
        return ended(reply, 1);
    if (!change_size(file, b.size, r->size))
        return status_reply(reply, 0);
    return ended(reply, b.size < r->size && put_back(file, &b));
}

/* ---- maps: memory of this process, which the machine hands out in zeros */

/* The map that begins there, or, at 0, where there is room for one. */
static map *find_map(host *h, uint64_t address)
{
    for (map *m = h->maps; m < h->maps + GUARD_MAPS; m++)
        if ((uintptr_t)m->at == address)
            return m;
    return NULL;
}

static void *new_memory(size_t length)
{
    void *at;
    int tries = 0;
    do
        at = mmap(NULL, length, PROT_READ | PROT_WRITE, MAP_PRIVATE | MAP_ANONYMOUS, -1, 0);
    while (at == MAP_FAILED && whole_again(&tries));
    return at;
}

static size_t make_map(host *h, const request *r, uint8_t *reply)
{
    map *m = find_map(h, 0);
    if (!m)
        return status_reply(reply, -ENOMEM);
    void *at = new_memory(r->length);
    if (at == MAP_FAILED)
        return failed(reply);
    *m = (map){at, r->length};
    return guard_map_reply(reply, HOST_REPLY_LENGTH, (uintptr_t)at, at, r->length);
}

static int end_map(map *m)
{
    int status = m->at ? munmap(m->at, m->length) : 0;
    *m = (map){NULL, 0};
    return status;
}

static size_t remove_map(host *h, const request *r, uint8_t *reply)
{
    map *m = find_map(h, r->address);
    if (!m)
        return status_reply(reply, -EINVAL);
    return end_map(m) ? failed(reply) : status_reply(reply, 0);
}

/* ---- requests */

size_t host_reply(host *h, const uint8_t *bytes, size_t length, uint8_t reply[HOST_REPLY_LENGTH])
{
    request r;
    char path[GUARD_PATH_LENGTH + 1] = "", new_path[GUARD_PATH_LENGTH + 1] = "";
    errno = 0;
    if (!guard_get_request(bytes, length, &r))
        return status_reply(reply, -EINVAL);
    guard_copy(path, r.path, r.path_length);
    guard_copy(new_path, r.new_path, r.new_path_length);
    r.path = path;
    r.new_path = new_path;
    switch (r.kind) {
    case GUARD_CREATE: return create(h, &r, reply);
    case GUARD_MKDIR: return make_directory(h, &r, reply);
    case GUARD_OPEN: return open_file(h, &r, reply);
    case GUARD_CLOSE: return close_file(h, &r, reply);
    case GUARD_FETCH: return fetch(h, &r, reply);
    case GUARD_STORE: return store(h, &r, reply);
    case GUARD_CUT: return cut(h, &r, reply);
    case GUARD_REMOVE: return removed(h, &r, 0, reply);
    case GUARD_RMDIR: return removed(h, &r, AT_REMOVEDIR, reply);
    case GUARD_CHMOD: return change_mode(h, &r, reply);
    case GUARD_READDIR: return list(h, &r, reply);
    case GUARD_MAP: return make_map(h, &r, reply);
    case GUARD_UNMAP: return remove_map(h, &r, reply);
    case GUARD_RENAME: return renamed(h, &r, reply);
    default: return stat_node(h, &r, reply);
    }
}

/* ---- start and end */

/* Rows of nodes that are gone: a host that was killed had removed them. A node that cannot be looked at is not gone. */
static int forget_removed(host *h)
{
    struct stat s;
    for (size_t i = h->table.count; i-- > 0;) {
        if (!look(h, h->table.rows[i].path, &s))
            continue;
        if (errno != ENOENT && errno != ENOTDIR && errno != ELOOP)
            return -1;
        table_remove(&h->table, h->table.rows[i].path);
    }
    return 0;
}

/* Whether a directory has no entries: 1, 0, or -1 and errno. */
static int is_empty(int directory)
{
    int found = 0;
    DIR *d = entries_of(whole_open(directory, ".", O_RDONLY | O_DIRECTORY));
    if (!d)
        return -1;
    errno = 0;
    for (struct dirent *e; !found && (e = readdir(d));)
        found = strcmp(e->d_name, ".") && strcmp(e->d_name, "..");
    int failed = errno;
    closedir(d);
    errno = failed;
    return failed ? -1 : !found;
}

/* The table of the host's last life, or, over a directory with nothing in it, the first one: written before any node
 * is made. A tree without its table would be given new ids and no modes, so there is no host over one. */
static int take_table(host *h, const char *file)
{
    if (!table_read(&h->table, file))
        return forget_removed(h);
    if (errno != ENOENT)
        return -1;
    int empty = is_empty(h->tree);
    if (empty == 0)
        errno = EBADMSG;
    table_begin(&h->table, file);
    return empty == 1 ? table_write(&h->table) : -1;
}

host *host_open(const char *tree, const char *table_file)
{
    host *h = malloc(sizeof *h);
    if (!h)
        return NULL;
    for (int d = 0; d < GUARD_DESCRIPTORS; d++)
        h->files[d] = -1;
    memset(h->maps, 0, sizeof h->maps);
    h->budget = 0;
    h->tree = mkdir(tree, 0700) && errno != EEXIST ? -1 : whole_open(AT_FDCWD, tree, O_RDONLY | O_DIRECTORY);
    if (h->tree < 0 || take_table(h, table_file)) {
        whole_leave(h->tree);
        free(h);
        return NULL;
    }
    return h;
}

void host_limit(host *h, uint64_t budget) { h->budget = budget; }

void host_close(host *h)
{
    for (int d = 0; d < GUARD_DESCRIPTORS; d++)
        if (h->files[d] >= 0)
            close(h->files[d]);
    for (map *m = h->maps; m < h->maps + GUARD_MAPS; m++)
        end_map(m);
    close(h->tree);
    free(h);
}

/* The table is there already: each change of it waited for the disk. */
int host_sync(host *h)
{
    int status, tries = 0;
    do
        status = syncfs(h->tree);
    while (status && whole_again(&tries));
    return status;
}
