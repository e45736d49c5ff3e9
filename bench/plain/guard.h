/* The file guard by hand in plain C, without proofs: what the archive's speed is measured against (bench/run), and
 * other software that the stored lists of events are run on (replay.c). Its entries take and give what the archive's
 * do.
 *
 * The page hash is HASH, a name given when guard.c is compiled: the archive's guard_sha256, or one in plain C. */
#ifndef PLAIN_GUARD_H
#define PLAIN_GUARD_H

#include "../../include/guard.h"

enum {
    NODES = GUARD_NODES, OPEN_FILES = GUARD_OPEN_FILES, PAGES = GUARD_PAGES, PAGE = GUARD_PAGE_LENGTH,
    DESCRIPTORS = GUARD_DESCRIPTORS, DIGEST = GUARD_DIGEST_LENGTH, FILE_BYTES = GUARD_FILE_LENGTH,
    NAME = GUARD_NAME_LENGTH, PATH = GUARD_PATH_LENGTH, DATA = GUARD_TRANSFER_LENGTH, MAPS = GUARD_MAPS,
    UNIT = GUARD_MAP_UNIT, MAP_BYTES = GUARD_MAP_LENGTH, ADDRESS = GUARD_ADDRESS_LENGTH
};
enum { ANSWER = GUARD_ANSWER_LENGTH, REQUEST = GUARD_REQUEST_LENGTH, IMAGE = GUARD_IMAGE_LENGTH };
enum { DONE = GUARD_DONE, ASK = GUARD_ASK, REFUSED = GUARD_REFUSED, STOPPED = GUARD_STOPPED };

typedef guard_outcome outcome;

struct node {
    uint32_t id, parent, size;
    uint16_t first; /* where the digests of its pages begin */
    uint8_t kind, mode, length, name[NAME];
};

struct open_file {
    uint32_t handle, descriptor, cursor;
    uint16_t node; /* its node's place */
    uint8_t rights;
};

/* The call that waits for a reply. */
struct pending {
    /* number: mode or rights; length: of a new name; digests: how many are staged */
    uint8_t call, number, length, digests;
    uint16_t node, opened, parent; /* node: of an unmap the map's place; parent: where a renamed node goes */
    uint32_t position, end, page, bytes; /* bytes: how many a read has gathered, or a map will have */
};

struct map { uint64_t address; uint32_t length; };

struct plain_guard {
    uint32_t nodes, opens, pages, maps;
    uint8_t running; /* 0: stopped, as a guard of zeros is */
    struct pending pending;
    struct node node[NODES];
    struct open_file open[OPEN_FILES];
    struct map map[MAPS];
    uint8_t digest[PAGES][DIGEST];
    uint8_t data[DATA];               /* a read's bytes, a write's, a new name */
    uint8_t staged[DATA / PAGE + 1][DIGEST]; /* of the pages that a change has sent */
};

outcome plain_fresh(struct plain_guard *g);
outcome plain_call(struct plain_guard *g, const uint8_t *call, size_t n, uint8_t *answer, size_t a, uint8_t *request,
    size_t q);
/* The same of a read-only guard; it has no other entry of its own. */
outcome plain_reader_call(struct plain_guard *g, const uint8_t *call, size_t n, uint8_t *answer, size_t a,
    uint8_t *request, size_t q);
outcome plain_reply(struct plain_guard *g, const uint8_t *reply, size_t n, uint8_t *answer, size_t a, uint8_t *request,
    size_t q);
outcome plain_save(struct plain_guard *g, uint8_t *image, size_t n, uint8_t digest[DIGEST]);
outcome plain_load(struct plain_guard *g, const uint8_t *image, size_t n, const uint8_t *digest, size_t d);

#endif
