/* A client of the guard: each call in one function, which builds the call and carries requests and replies between
 * guard and host until the call is done, refused or stopped. */
#ifndef CLIENT_H
#define CLIENT_H

#include <stddef.h>
#include <stdint.h>

#include "guard_client.h"
#include "host.h"
#include "trace.h"

/* Whoever obeys requests: the host's own function, or one that listens in between. */
typedef size_t client_host(void *host, const uint8_t *request, size_t length, uint8_t reply[HOST_REPLY_LENGTH]);

typedef struct {
    union { guard guard; guard_reader reader; }; /* a guard, or a read-only one */
    union {
        guard_client layer; /* has the answer of a call that is done, and copies what the host can write: the reply */
        guard_reader_client reader_layer; /* of a read-only guard; what it has stands in `layer` too */
    };
    int is_reader;
    client_host *ask;
    void *host;
    FILE *trace; /* where all that goes in and comes out is written (trace.h), or null */
    uint8_t reply[HOST_REPLY_LENGTH];
    uint8_t call[GUARD_CALL_LENGTH]; /* the last call's bytes; none where it could not be built, which the guard refuses */
    size_t call_length;
} client;

/* A client with a fresh guard; `trace` may be null. */
void client_begin(client *c, client_host *ask, void *with, FILE *trace);

/* A client with a fresh read-only guard: calls that would change something are refused GUARD_READ_ONLY. */
void client_begin_reader(client *c, client_host *ask, void *with, FILE *trace);

/* The host of host.h, as a client_host. */
size_t client_ask_host(void *host, const uint8_t *request, size_t length, uint8_t reply[HOST_REPLY_LENGTH]);

/* A call of any bytes. */
guard_outcome client_call(client *c, const uint8_t *call, size_t length);

guard_outcome client_create(client *c, const char *path, uint8_t mode);
guard_outcome client_mkdir(client *c, const char *path, uint8_t mode);
guard_outcome client_open(client *c, const char *path, uint8_t rights); /* done with the handle */
guard_outcome client_close(client *c, uint32_t handle);
guard_outcome client_seek(client *c, uint32_t handle, uint64_t position);
guard_outcome client_read(client *c, uint32_t handle, uint32_t count);
guard_outcome client_write(client *c, uint32_t handle, const void *bytes, size_t length);
guard_outcome client_truncate(client *c, uint32_t handle, uint64_t size);
guard_outcome client_remove(client *c, const char *path);
guard_outcome client_rmdir(client *c, const char *path);
guard_outcome client_chmod(client *c, const char *path, uint8_t mode);
guard_outcome client_readdir(client *c, const char *path);
guard_outcome client_stat(client *c, const char *path);
guard_outcome client_map(client *c, size_t length); /* done with the address */
guard_outcome client_unmap(client *c, uint64_t address);
guard_outcome client_rename(client *c, const char *path, const char *new_path);

#endif
