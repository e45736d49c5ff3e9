/* The functions that are compared: ours_ are the entries of entries.rt.in, plain_ straightforward C. A slice is a
 * pointer and a length. */
#include <stdbool.h>
#include <stddef.h>
#include <stdint.h>
#include "../../include/guard.h"

/* the memory: a header of 32 numbers, rows of nodes and of open files, page digests */
enum {
    SIZE = GUARD_MEMORY_LENGTH, NODES = GUARD_NODES, DIGEST = GUARD_DIGEST_LENGTH, WIDTH = 56, OPEN_WIDTH = 30,
    NODES_AT = 32 * 8, DIGESTS_AT = NODES_AT + NODES * WIDTH + GUARD_OPEN_FILES * OPEN_WIDTH
};

size_t ours_find(const uint8_t *m, size_t length, size_t n, uint64_t parent, const uint8_t *name, size_t name_length);
size_t plain_find(const uint8_t *m, size_t length, size_t n, uint64_t parent, const uint8_t *name, size_t name_length);
void ours_add(uint8_t *m, size_t length, size_t n, const uint8_t *row);
void plain_add(uint8_t *m, size_t length, size_t n, const uint8_t *row);
void ours_remove(uint8_t *m, size_t length, size_t n, size_t k);
void plain_remove(uint8_t *m, size_t length, size_t n, size_t k);
void ours_put_digest(uint8_t *m, size_t length, size_t k, const uint8_t *digest);
void plain_put_digest(uint8_t *m, size_t length, size_t k, const uint8_t *digest);
size_t ours_write_image(const uint8_t *m, size_t length, size_t n, uint8_t *out, size_t out_length);
size_t plain_write_image(const uint8_t *m, size_t length, size_t n, uint8_t *out, size_t out_length);
size_t setup_image(const uint8_t *m, size_t n, uint8_t *out);
bool ours_is_sound(const uint8_t *image, size_t length);
int plain_is_sound(const uint8_t *image, size_t length);
size_t ours_load(const uint8_t *image, size_t length, uint8_t *m, size_t m_length);
size_t plain_load(const uint8_t *image, size_t length, uint8_t *m, size_t m_length);

uint64_t ours_walk(const uint8_t *m, size_t length, size_t n, const uint8_t *path, size_t path_length);
uint64_t plain_walk(const uint8_t *m, size_t length, size_t n, const uint8_t *path, size_t path_length);
uint64_t ours_form(const uint8_t *path, size_t length);
uint64_t plain_form(const uint8_t *path, size_t length);
bool ours_covers(uint8_t mode, uint8_t rights);
int plain_covers(unsigned mode, unsigned rights);
