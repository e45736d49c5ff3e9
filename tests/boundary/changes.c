/* Entries with one fault each, between the driver and the archive (ld --wrap): the driver must see every one. CHANGE
 * names it. */
#include "guard.h"

#include <stdlib.h>
#include <string.h>

guard_outcome __real_guard_entry_fresh(uint8_t *, size_t);
guard_outcome __real_guard_entry_call(uint8_t *, size_t, const uint8_t *, size_t, uint8_t *, size_t, uint8_t *, size_t);
guard_outcome __real_guard_entry_reader_call(uint8_t *, size_t, const uint8_t *, size_t, uint8_t *, size_t, uint8_t *,
    size_t);
guard_outcome __real_guard_entry_reply(uint8_t *, size_t, const uint8_t *, size_t, uint8_t *, size_t, uint8_t *,
    size_t);
guard_outcome __real_guard_entry_save(uint8_t *, size_t, uint8_t *, size_t, uint8_t *);
guard_outcome __real_guard_entry_load(uint8_t *, size_t, const uint8_t *, size_t, const uint8_t *, size_t);

static int change_is(const char *name)
{
    const char *change = getenv("CHANGE");
    return change && !strcmp(change, name);
}

static void change(const char *name, uint8_t *byte)
{
    if (change_is(name))
        *byte ^= 1;
}

static void look(const char *name, const volatile uint8_t *byte)
{
    if (change_is(name))
        (void)*byte;
}

/* What is done to the guard's memory, by any entry. Two guards get events in turns: the last one was the other's, the
 * one before it this one's. */
static void to_memory(uint8_t *memory, size_t n)
{
    static uint8_t *last, *one_before;
    if (n != GUARD_MEMORY_LENGTH) {
        if (n)
            change("a short memory", memory);
        return;
    }
    if (last && last != memory)
        change("where the last event was", last);
    if (one_before && one_before != memory)
        change("where the event before the last one was", one_before);
    one_before = last;
    last = memory;
    change("behind the memory", memory + n);
    change("before the memory", memory - 1);
}

static void to_input(const uint8_t *bytes, size_t l)
{
    if (!l) {
        look("read of an empty input", bytes);
        return;
    }
    look("read behind the input", bytes + l);
    look("read before the input", bytes - 1);
    if (change_is("write to the input"))
        *(volatile uint8_t *)(uintptr_t)bytes = bytes[0];
}

static void to_buffers(guard_outcome o, uint8_t *answer, size_t a, uint8_t *request, size_t q)
{
    if (o.kind == GUARD_DONE && o.length < a)
        change("behind the answer", answer + o.length);
    if (o.kind == GUARD_ASK && o.length < q)
        change("behind the request", request + o.length);
    if (o.kind == GUARD_ASK)
        change("the answer of a request", answer);
    if (o.kind == GUARD_DONE)
        change("the request of an answer", request);
    if (o.kind >= GUARD_REFUSED && a)
        change(o.kind == GUARD_STOPPED ? "the answer of a stop" : "the answer of a refusal", answer + a - 1);
    if (o.kind >= GUARD_REFUSED && q)
        change(o.kind == GUARD_STOPPED ? "the request of a stop" : "the request of a refusal", request + q - 1);
    if (a)
        change("before the answer", answer - 1);
    if (q == GUARD_REQUEST_LENGTH)
        change("behind the request buffer", request + q);
}

/* The last byte of a longer buffer, which no answer or request reaches. */
static void to_longer(uint8_t *answer, size_t a, uint8_t *request, size_t q)
{
    if (a > GUARD_ANSWER_LENGTH)
        change("a longer answer buffer is written", answer + a - 1);
    if (q > GUARD_REQUEST_LENGTH)
        change("a longer request buffer is written", request + q - 1);
}

static const guard_outcome short_buffer = {GUARD_REFUSED, GUARD_SHORT_BUFFER, 0};

/* A guard that needs the exact lengths. */
static int refuses_longer(size_t a, size_t q)
{
    return (a > GUARD_ANSWER_LENGTH && change_is("a longer answer buffer is refused")) ||
           (q > GUARD_REQUEST_LENGTH && change_is("a longer request buffer is refused"));
}

static guard_outcome shown(guard_outcome o, const uint8_t *memory, size_t n)
{
    static int pending;
    static const uint8_t *first;
    o.kind += change_is("another kind") && o.kind == GUARD_REFUSED;
    o.number += change_is("another number");
    o.length += change_is("another length") && o.kind <= GUARD_ASK && o.length;
    o.length += change_is("a length of a refusal") && o.kind == GUARD_REFUSED;
    if (change_is("one pending call for all guards") && pending && o.kind == GUARD_DONE && n == GUARD_MEMORY_LENGTH)
        o.number = 114;
    pending = o.kind == GUARD_ASK;
    if (change_is("a guard that may not move") && first && first != memory)
        o.kind = GUARD_STOPPED;
    first = memory;
    return o;
}

guard_outcome __wrap_guard_entry_fresh(uint8_t *memory, size_t n)
{
    to_memory(memory, n);
    return __real_guard_entry_fresh(memory, n);
}

guard_outcome __wrap_guard_entry_call(uint8_t *memory, size_t n, const uint8_t *call, size_t l, uint8_t *answer,
    size_t a, uint8_t *request, size_t q)
{
    if (refuses_longer(a, q))
        return short_buffer;
    guard_outcome o = __real_guard_entry_call(memory, n, call, l, answer, a, request, q);
    if (o.kind == GUARD_ASK && call[0] == GUARD_RENAME) {
        change("a rename's first length", request + 1);
        change("a rename's last byte", request + o.length - 1);
    }
    to_memory(memory, n);
    to_input(call, l);
    to_buffers(o, answer, a, request, q);
    to_longer(answer, a, request, q);
    return shown(o, memory, n);
}

static const guard_outcome read_only = {GUARD_REFUSED, GUARD_READ_ONLY, 0};

static int is_refused(guard_outcome o, uint64_t number) { return o.kind == GUARD_REFUSED && o.number == number; }

/* What is wrong with the outcome of a read-only guard, or with its memory, which a guard beside it shows. */
static guard_outcome of_reader(guard_outcome o, uint8_t *memory, size_t n)
{
    if (is_refused(o, GUARD_READ_ONLY) && change_is("a reader says 13"))
        o.number = GUARD_BARRED;
    if (is_refused(o, GUARD_MALFORMED) && change_is("a reader says 30 before 22"))
        return read_only;
    if (is_refused(o, GUARD_PENDING) && change_is("a reader says 30 before 114"))
        return read_only;
    if (is_refused(o, GUARD_SHORT_BUFFER) && change_is("a reader says 30 before 34"))
        return read_only;
    if (is_refused(o, GUARD_TOO_LONG) && change_is("a reader says 30 before 36"))
        return read_only;
    if (o.kind == GUARD_DONE && change_is("a reader refuses what it has done"))
        return read_only;
    if (n != GUARD_MEMORY_LENGTH)
        return o;
    if (is_refused(o, GUARD_READ_ONLY))
        change("a reader writes its memory and refuses", memory + n / 2);
    if (o.kind <= GUARD_ASK)
        change("a reader writes its memory and takes the call", memory + n - 1);
    return o;
}

guard_outcome __wrap_guard_entry_reader_call(uint8_t *memory, size_t n, const uint8_t *call, size_t l, uint8_t *answer,
    size_t a, uint8_t *request, size_t q)
{
    if (change_is("a reader that is the guard"))
        return __real_guard_entry_call(memory, n, call, l, answer, a, request, q);
    guard_outcome o = __real_guard_entry_reader_call(memory, n, call, l, answer, a, request, q);
    if (o.kind == GUARD_ASK)
        change("a reader's request", request);
    if (is_refused(o, GUARD_READ_ONLY)) {
        change("a reader writes the answer and refuses", answer);
        change("a reader writes the request and refuses", request + q - 1);
    }
    if (l)
        look("a reader reads behind the call", call + l);
    return of_reader(o, memory, n);
}

guard_outcome __wrap_guard_entry_reply(uint8_t *memory, size_t n, const uint8_t *reply, size_t l, uint8_t *answer,
    size_t a, uint8_t *request, size_t q)
{
    static uint8_t before[GUARD_MEMORY_LENGTH];
    if (refuses_longer(a, q))
        return short_buffer;
    if (n == sizeof before)
        memcpy(before, memory, n);
    guard_outcome o = __real_guard_entry_reply(memory, n, reply, l, answer, a, request, q);
    if (o.kind == GUARD_DONE && !o.length && change_is("a stop at a right reply"))
        o = (guard_outcome){GUARD_STOPPED, GUARD_STOP_STATUS, 0};
    if (o.kind == GUARD_REFUSED && o.number == GUARD_FULL) {
        if (change_is("a full disk that leaves the request"))
            memcpy(memory, before, n);
        if (change_is("a full disk that stops"))
            o = (guard_outcome){GUARD_STOPPED, GUARD_STOP_STATUS, 0};
    }
    to_memory(memory, n);
    to_input(reply, l);
    to_buffers(o, answer, a, request, q);
    return shown(o, memory, n);
}

guard_outcome __wrap_guard_entry_save(uint8_t *memory, size_t n, uint8_t *image, size_t l, uint8_t *digest)
{
    if (l > GUARD_IMAGE_LENGTH && change_is("a longer image buffer is refused"))
        return short_buffer;
    guard_outcome o = __real_guard_entry_save(memory, n, image, l, digest);
    if (o.kind == GUARD_DONE) {
        change("the image", image + o.length / 2);
        change("the digest", digest + GUARD_DIGEST_LENGTH - 1);
    } else {
        change("the digest of a refused save", digest);
        if (l)
            change("the image of a refused save", image);
    }
    if (o.kind == GUARD_DONE && o.length < l)
        change("behind the image", image + o.length);
    if (l > GUARD_IMAGE_LENGTH)
        change("a longer image buffer is written", image + l - 1);
    change("behind the digest", digest + GUARD_DIGEST_LENGTH);
    return o;
}

guard_outcome __wrap_guard_entry_load(uint8_t *memory, size_t n, const uint8_t *image, size_t l, const uint8_t *digest,
    size_t d)
{
    if (l)
        look("read behind the image", image + l);
    if (d)
        look("read behind the digest", digest + d);
    else
        look("read of an empty digest", digest);
    if (d && change_is("write to the digest handed in"))
        *(volatile uint8_t *)(uintptr_t)digest = digest[0];
    return __real_guard_entry_load(memory, n, image, l, digest, d);
}
