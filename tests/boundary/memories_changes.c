/* Entries with one fault each at memories that are no guard's own, between memories.c and the archive (ld --wrap).
 * CHANGE names it; its first word is the part of memories.c that must see it. */
#include "guard.h"

#include <stdlib.h>
#include <string.h>

guard_outcome __real_guard_entry_fresh(uint8_t *, size_t);
guard_outcome __real_guard_entry_call(uint8_t *, size_t, const uint8_t *, size_t, uint8_t *, size_t, uint8_t *, size_t);
guard_outcome __real_guard_entry_reader_call(uint8_t *, size_t, const uint8_t *, size_t, uint8_t *, size_t, uint8_t *,
    size_t);
guard_outcome __real_guard_entry_reply(uint8_t *, size_t, const uint8_t *, size_t, uint8_t *, size_t, uint8_t *,
    size_t);
guard_outcome __real_guard_entry_save(uint8_t *, size_t, uint8_t *, size_t, uint8_t *);
guard_outcome __real_guard_entry_load(uint8_t *, size_t, const uint8_t *, size_t, const uint8_t *, size_t);

static uint8_t left[GUARD_MEMORY_LENGTH]; /* the memory as the last entry left it */
static int is_zeros, is_longer, is_written; /* written: it differs from that, and was not made fresh since */

static const guard_outcome short_buffer = {GUARD_REFUSED, GUARD_SHORT_BUFFER, 0};

static int change_is(const char *name)
{
    const char *change = getenv("CHANGE");
    return change && !strcmp(change, name);
}

static void change(const char *name, uint8_t *byte)
{
    if (change_is(name))
        *byte ^= 1;
}

static void look(const char *name, const volatile uint8_t *byte)
{
    if (change_is(name))
        (void)*byte;
}

/* At the start of each entry but fresh, to which all memories are alike. */
static void begin(uint8_t *memory, size_t n)
{
    is_zeros = !memory[0] && !memcmp(memory, memory + 1, GUARD_MEMORY_LENGTH - 1);
    is_longer = !is_zeros && n > GUARD_MEMORY_LENGTH;
    is_written = !is_zeros && (is_written || memcmp(memory, left, GUARD_MEMORY_LENGTH));
    if (is_zeros && change_is("zeros: a fresh guard"))
        __real_guard_entry_fresh(memory, n);
    if (is_written) {
        look("written: a read behind the memory", memory + n);
        look("written: a read before the memory", memory - 1);
        change("written: a write behind the memory", memory + n);
        change("written: a write before the memory", memory - 1);
        while (change_is("written: no return"))
            ;
    }
    memcpy(left, memory, GUARD_MEMORY_LENGTH);
}

static int is_cut(size_t length, size_t least)
{
    return length > least && length % 65536 < least;
}

static int refuses(size_t n)
{
    return (is_longer && change_is("longer: a memory is refused")) ||
           (is_cut(n, GUARD_MEMORY_LENGTH) && change_is("longer: the low 16 bits of a memory's length"));
}

static int refuses_buffers(size_t a, size_t q)
{
    return (is_cut(a, GUARD_ANSWER_LENGTH) && change_is("longer: the low 16 bits of an answer's length")) ||
           (is_cut(q, GUARD_REQUEST_LENGTH) && change_is("longer: the low 16 bits of a request's length"));
}

/* At the end of each entry. */
static guard_outcome end(uint8_t *memory, size_t n, guard_outcome o)
{
    if (is_zeros)
        change("zeros: the memory is written", memory + GUARD_MEMORY_LENGTH / 2);
    if (is_longer) {
        change("longer: the byte behind the guard", memory + GUARD_MEMORY_LENGTH);
        change("longer: the last byte of the memory", memory + n - 1);
        o.number += o.kind == GUARD_DONE && change_is("longer: another number");
    }
    if (is_written) {
        if (o.kind == GUARD_STOPPED && change_is("written: a stop is not kept"))
            memcpy(memory, left, GUARD_MEMORY_LENGTH);
        if (o.number == GUARD_STOPPED_FOR_GOOD && change_is("written: a stop is forgotten"))
            o.number = GUARD_NOT_PENDING;
        o.length += o.kind == GUARD_REFUSED && change_is("written: bytes of a refusal");
        o.length += o.kind == GUARD_STOPPED && change_is("written: bytes of a stop");
        if (change_is("written: a kind of 4"))
            o.kind = 4;
        if (change_is("written: a kind of -1"))
            o.kind = -1;
    }
    memcpy(left, memory, GUARD_MEMORY_LENGTH);
    return o;
}

static void to_buffers(guard_outcome o, uint8_t *answer, size_t a, uint8_t *request, size_t q)
{
    if (is_zeros && a) {
        change("zeros: the answer is written", answer);
        change("zeros: the request is written", request + q - 1);
    }
    if (is_longer && o.length)
        change(o.kind == GUARD_DONE ? "longer: another answer" : "longer: another request", o.kind == GUARD_DONE
            ? answer : request);
    if (a > GUARD_ANSWER_LENGTH)
        change("longer: behind the answer", answer + a - 1);
    if (q > GUARD_REQUEST_LENGTH)
        change("longer: behind the request", request + q - 1);
    if (is_written) {
        change("written: behind the answer", answer + a);
        change("written: before the answer", answer - 1);
        change("written: behind the request", request + q);
        change("written: before the request", request - 1);
    }
}

static guard_outcome to_event(const char *name, guard_outcome o, const uint8_t *bytes, size_t l)
{
    if (is_zeros && change_is(name))
        o.number = GUARD_NOT_PENDING;
    if (is_written && l) {
        look("written: a read behind what is handed in", bytes + l);
        look("written: a read before what is handed in", bytes - 1);
        if (change_is("written: a write to what is handed in"))
            *(volatile uint8_t *)(uintptr_t)bytes = bytes[0];
    }
    return o;
}

/* More bytes than the buffer has. */
static guard_outcome too_long(const char *name, guard_outcome o, int kind, size_t room)
{
    if (is_written && o.kind == kind && change_is(name))
        o.length = room + 1;
    return o;
}

guard_outcome __wrap_guard_entry_fresh(uint8_t *memory, size_t n)
{
    if (is_written && change_is("written: fresh does nothing"))
        return (guard_outcome){GUARD_DONE, 0, 0};
    is_written = is_zeros = 0;
    is_longer = n > GUARD_MEMORY_LENGTH;
    if (is_longer && change_is("longer: fresh clears everything"))
        memset(memory, 0, n);
    return end(memory, n, __real_guard_entry_fresh(memory, n));
}

guard_outcome __wrap_guard_entry_call(uint8_t *memory, size_t n, const uint8_t *call, size_t l, uint8_t *answer,
    size_t a, uint8_t *request, size_t q)
{
    begin(memory, n);
    if (refuses(n) || refuses_buffers(a, q))
        return short_buffer;
    guard_outcome o = __real_guard_entry_call(memory, n, call, l, answer, a, request, q);
    to_buffers(o, answer, a, request, q);
    o = too_long("written: a request longer than its buffer", o, GUARD_ASK, q);
    return end(memory, n, to_event("zeros: another number for a call", o, call, l));
}

guard_outcome __wrap_guard_entry_reader_call(uint8_t *memory, size_t n, const uint8_t *call, size_t l, uint8_t *answer,
    size_t a, uint8_t *request, size_t q)
{
    begin(memory, n);
    if (is_longer && change_is("longer: a reader's memory is refused"))
        return short_buffer;
    guard_outcome o = __real_guard_entry_reader_call(memory, n, call, l, answer, a, request, q);
    if (o.number == GUARD_READ_ONLY && is_longer && change_is("longer: another number for a reader's call"))
        o.number = GUARD_BARRED;
    if (is_written) {
        look("written: a reader reads behind the memory", memory + n);
        change("written: a reader writes behind the request", request + q);
    }
    o = too_long("written: a reader's request longer than its buffer", o, GUARD_ASK, q);
    return end(memory, n, to_event("zeros: another number for a reader's call", o, call, l));
}

guard_outcome __wrap_guard_entry_reply(uint8_t *memory, size_t n, const uint8_t *reply, size_t l, uint8_t *answer,
    size_t a, uint8_t *request, size_t q)
{
    begin(memory, n);
    if (refuses(n) || refuses_buffers(a, q))
        return short_buffer;
    guard_outcome o = __real_guard_entry_reply(memory, n, reply, l, answer, a, request, q);
    to_buffers(o, answer, a, request, q);
    o = too_long("written: an answer longer than its buffer", o, GUARD_DONE, a);
    return end(memory, n, to_event("zeros: another number for a reply", o, reply, l));
}

guard_outcome __wrap_guard_entry_save(uint8_t *memory, size_t n, uint8_t *image, size_t l, uint8_t *digest)
{
    begin(memory, n);
    if (refuses(n) || (is_cut(l, GUARD_IMAGE_LENGTH) && change_is("longer: the low 16 bits of an image's length")))
        return short_buffer;
    guard_outcome o = __real_guard_entry_save(memory, n, image, l, digest);
    if (is_zeros && l) {
        change("zeros: the image is written", image);
        change("zeros: the digest is written", digest);
    }
    if (is_longer && o.kind == GUARD_DONE) {
        change("longer: another image", image);
        change("longer: another digest", digest);
    }
    if (l > GUARD_IMAGE_LENGTH)
        change("longer: behind the image", image + l - 1);
    if (is_written) {
        change("written: behind the image", image + l);
        change("written: behind the digest", digest + GUARD_DIGEST_LENGTH);
    }
    o = too_long("written: an image longer than its buffer", o, GUARD_DONE, l);
    return end(memory, n, to_event("zeros: another number for a save", o, NULL, 0));
}

guard_outcome __wrap_guard_entry_load(uint8_t *memory, size_t n, const uint8_t *image, size_t l, const uint8_t *digest,
    size_t d)
{
    begin(memory, n);
    if (refuses(n))
        return short_buffer;
    guard_outcome o = __real_guard_entry_load(memory, n, image, l, digest, d);
    if (is_longer)
        change("longer: a load writes behind the guard", memory + GUARD_MEMORY_LENGTH);
    o = too_long("written: bytes of a load", o, GUARD_DONE, 0);
    return end(memory, n, to_event("zeros: another number for a load", o, image, l));
}
