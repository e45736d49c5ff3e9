/* A log of all that goes into a guard and comes out, in the lines of the desk program with saves and loads: `./run
 * explain FILE` tells it in words.
 *
 *     f              a fresh guard
 *     o              a fresh read-only guard
 *     c CALL         a call
 *     r REPLY        the host's reply
 *     s LENGTH       a save into a buffer of this length
 *     l IMAGE DIGEST a load
 *     = ANSWER       below each but f and o: ask, done, refused or stopped, its number and bytes; a save's has image and digest
 *
 * Bytes are in hexadecimal, pages too: a log has all that the files have. Where the stream is null nothing is
 * written. */
#ifndef TRACE_H
#define TRACE_H

#include <stdio.h>

#include "guard_client.h"

void trace_fresh(FILE *to);
void trace_fresh_reader(FILE *to);

/* An event by its letter and bytes, before it is handed in. */
void trace_event(FILE *to, char letter, const uint8_t *bytes, size_t length);

/* What came back, and the `o.length` bytes that stand in the request, for an ask, or in the answer. */
void trace_outcome(FILE *to, guard_outcome o, const uint8_t *bytes);

void trace_save(FILE *to, guard_outcome o, const uint8_t *image, const uint8_t *digest);
void trace_load(FILE *to, const uint8_t *image, size_t length, const uint8_t *digest, size_t n, guard_outcome o);

#endif
