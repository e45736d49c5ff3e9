#include "client.h"

#include <string.h>

static void clear(client *c, client_host *ask, void *with, FILE *trace)
{
    memset(c, 0, sizeof *c);
    c->ask = ask;
    c->host = with;
    c->trace = trace;
}

void client_begin(client *c, client_host *ask, void *with, FILE *trace)
{
    clear(c, ask, with, trace);
    guard_client_fresh(&c->layer, &c->guard);
    trace_fresh(trace);
}

void client_begin_reader(client *c, client_host *ask, void *with, FILE *trace)
{
    clear(c, ask, with, trace);
    c->is_reader = 1;
    guard_reader_client_fresh(&c->reader_layer, &c->reader);
    trace_fresh_reader(trace);
}

size_t client_ask_host(void *h, const uint8_t *request, size_t length, uint8_t reply[HOST_REPLY_LENGTH])
{
    return host_reply(h, request, length, reply);
}

/* Replies, saves and loads are the same for both; this alone is not. */
static guard_outcome enter(client *c, const uint8_t *call, size_t length)
{
    return c->is_reader ? guard_reader_client_call(&c->reader_layer, call, length, NULL, 0)
        : guard_client_call(&c->layer, call, length, NULL, 0);
}

guard_outcome client_call(client *c, const uint8_t *call, size_t length)
{
    trace_event(c->trace, 'c', call, length);
    guard_outcome o = enter(c, call, length);
    while (o.kind == GUARD_ASK) {
        trace_outcome(c->trace, o, c->layer.request);
        size_t n = c->ask(c->host, c->layer.request, o.length, c->reply);
        trace_event(c->trace, 'r', c->reply, n);
        o = guard_client_reply(&c->layer, c->reply, n, NULL, 0);
    }
    trace_outcome(c->trace, o, c->layer.answer);
    return o;
}

/* ---- the calls */

enum { ROOM = GUARD_CALL_LENGTH };

static guard_outcome submit(client *c, size_t length)
{
    c->call_length = length;
    return client_call(c, c->call, length);
}

guard_outcome client_create(client *c, const char *path, uint8_t mode) { return submit(c, guard_create_call(c->call, ROOM, path, mode)); }
guard_outcome client_mkdir(client *c, const char *path, uint8_t mode) { return submit(c, guard_mkdir_call(c->call, ROOM, path, mode)); }
guard_outcome client_open(client *c, const char *path, uint8_t rights) { return submit(c, guard_open_call(c->call, ROOM, path, rights)); }
guard_outcome client_close(client *c, uint32_t handle) { return submit(c, guard_close_call(c->call, ROOM, handle)); }
guard_outcome client_seek(client *c, uint32_t handle, uint64_t position) { return submit(c, guard_seek_call(c->call, ROOM, handle, position)); }
guard_outcome client_read(client *c, uint32_t handle, uint32_t count) { return submit(c, guard_read_call(c->call, ROOM, handle, count)); }
guard_outcome client_truncate(client *c, uint32_t handle, uint64_t size) { return submit(c, guard_truncate_call(c->call, ROOM, handle, size)); }
guard_outcome client_remove(client *c, const char *path) { return submit(c, guard_remove_call(c->call, ROOM, path)); }
guard_outcome client_rmdir(client *c, const char *path) { return submit(c, guard_rmdir_call(c->call, ROOM, path)); }
guard_outcome client_chmod(client *c, const char *path, uint8_t mode) { return submit(c, guard_chmod_call(c->call, ROOM, path, mode)); }
guard_outcome client_readdir(client *c, const char *path) { return submit(c, guard_readdir_call(c->call, ROOM, path)); }
guard_outcome client_stat(client *c, const char *path) { return submit(c, guard_stat_call(c->call, ROOM, path)); }

guard_outcome client_map(client *c, size_t length) { return submit(c, guard_map_call(c->call, ROOM, length)); }
guard_outcome client_unmap(client *c, uint64_t address) { return submit(c, guard_unmap_call(c->call, ROOM, address)); }

guard_outcome client_rename(client *c, const char *path, const char *new_path)
{
    return submit(c, guard_rename_call(c->call, ROOM, path, new_path));
}

guard_outcome client_write(client *c, uint32_t handle, const void *bytes, size_t length)
{
    return submit(c, guard_write_call(c->call, ROOM, handle, bytes, length));
}
