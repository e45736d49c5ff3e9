/* SHA-256 (FIPS 180-4): the page digest, usable without the rest of the guard.
 *
 * Writes the 32 bytes of the digest of the `length` bytes at `message` to `out`. Any length is allowed; with length 0 the
 * message pointer is not read and may be null. `out` may not overlap the message. Nothing is kept between calls.
 *
 * Link with the archive that `./run archive digest` makes: target/staticlib/libdigest.a. */
#ifndef GUARD_SHA256_H
#define GUARD_SHA256_H

#include <stddef.h>
#include <stdint.h>

#ifdef __cplusplus
extern "C" {
#endif

void guard_sha256(const uint8_t *message, size_t length, uint8_t out[32]);

#ifdef __cplusplus
}
#endif

#endif
