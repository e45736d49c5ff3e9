/* Memories that are no guard's own (SPECIFICATION 6.5).
 *
 *     memories low|high CASES
 *
 * zeros      never made fresh: everything is refused 5, and no byte changes
 * longer     than a guard: a session comes to the same as in the exact length, in longer buffers too, and the bytes
 *            behind the guard stay
 * written    by somebody else, in the middle of a session: whatever is handed in, an entry returns, its outcome fits
 *            the buffers, nothing outside of what is lent is touched, after a stop everything is refused 5, and once
 *            made fresh it is a guard like any other
 *
 * All that is lent lies against unreadable pages (places.h), at their low or high end. The session's host is the
 * fuzzer's. Ends with status 1 at the first difference. */
#define _GNU_SOURCE
#include "guard.h"
#include "host.h"
#include "places.h"

#include <signal.h>
#include <stdarg.h>
#include <stdio.h>
#include <stdlib.h>
#include <string.h>
#include <sys/time.h>
#include <unistd.h>

enum { CALL = 'c', LOOK = 'o', REPLY = 'r', SAVE = 's', LOAD = 'l', FRESH = 'f' };
enum { EVENTS = 250, FOLLOWING = 12, WRITES = 8, BLOCK = 4096, LONGEST = 1 << 17 };

/* What is handed in, what came back, and the guard then. */
struct event {
    char letter;
    uint8_t *bytes; /* the call, reply or image */
    size_t length;
    uint8_t seal[GUARD_DIGEST_LENGTH]; /* the digest that is handed in with an image */
    guard_outcome outcome;
    uint8_t *given, digest[GUARD_DIGEST_LENGTH]; /* the bytes that came back; a save's digest */
    uint8_t *memory;
};

static struct event session[EVENTS];
static size_t count;
static struct place memory, answer, request, image, digest, input, seal;
static const char *part = "session";
static char call_letter = CALL; /* of the guard, or of the read-only one: the memory is the same */
static unsigned long events, outcomes[4], after_stop;

static void differ(const char *format, ...)
{
    va_list words;
    va_start(words, format);
    printf("memories: %s, event %lu: ", part, events);
    vprintf(format, words);
    va_end(words);
    printf("\n");
    exit(1);
}

/* A read or write where none may be, or an entry that does not return. Nothing was in the library when the guard was,
 * so printing is safe here. */
static void on_signal(int number)
{
    printf("memories: %s, event %lu: %s\n", part, events, number == SIGPROF ? "does not return" : strsignal(number));
    fflush(stdout);
    _exit(1);
}

/* ---- handing in */

static void lend(size_t answer_length, size_t request_length, size_t image_length)
{
    place_lend(&answer, answer_length);
    place_lend(&request, request_length);
    place_lend(&image, image_length);
    place_lend(&digest, GUARD_DIGEST_LENGTH);
}

static guard_outcome enter(char letter)
{
    const struct place *m = &memory;
    switch (letter) {
    case CALL: return guard_entry_call(m->at, m->length, input.at, input.length, answer.at, answer.length, request.at,
        request.length);
    case LOOK: return guard_entry_reader_call(m->at, m->length, input.at, input.length, answer.at, answer.length,
        request.at, request.length);
    case REPLY: return guard_entry_reply(m->at, m->length, input.at, input.length, answer.at, answer.length, request.at,
        request.length);
    case SAVE: return guard_entry_save(m->at, m->length, image.at, image.length, digest.at);
    case LOAD: return guard_entry_load(m->at, m->length, input.at, input.length, seal.at, seal.length);
    default: return guard_entry_fresh(m->at, m->length);
    }
}

/* Where an outcome's bytes stand, if it may have some. */
static const struct place *bytes_of(char letter, int kind)
{
    if (letter == CALL || letter == LOOK || letter == REPLY)
        return kind == GUARD_DONE ? &answer : kind == GUARD_ASK ? &request : NULL;
    return letter == SAVE && kind == GUARD_DONE ? &image : NULL;
}

static void outside_untouched(const struct place *p)
{
    if (!place_untouched(p, p->length))
        differ("%s is touched outside of what is lent", p->name);
}

/* What holds of every memory. */
static void check(char letter, guard_outcome o)
{
    const struct place *given = bytes_of(letter, o.kind);
    if (o.kind < GUARD_DONE || o.kind > GUARD_STOPPED)
        differ("an outcome of kind %d", o.kind);
    if (o.length > (given ? given->length : 0))
        differ("%zu bytes of an outcome of kind %d", o.length, o.kind);
    outside_untouched(&memory);
    outside_untouched(&answer);
    outside_untouched(&request);
    outside_untouched(&image);
    outside_untouched(&digest);
}

static guard_outcome hand_in(char letter, const uint8_t *bytes, size_t length, const uint8_t *with)
{
    events++;
    place_input(&input, bytes, length);
    place_input(&seal, with, with ? GUARD_DIGEST_LENGTH : 0);
    guard_outcome o = enter(letter);
    check(letter, o);
    return o;
}

static guard_outcome again(const struct event *e)
{
    return hand_in(e->letter, e->bytes, e->length, e->letter == LOAD ? e->seal : NULL);
}

static void clean_buffers(void)
{
    place_restore(&answer, answer.length);
    place_restore(&request, request.length);
    place_restore(&image, image.length);
    place_restore(&digest, digest.length);
}

/* ---- the session, in a memory and buffers of the least lengths */

static void *copy(const void *bytes, size_t n)
{
    return n ? memcpy(malloc(n), bytes, n) : NULL;
}

static const struct event *record(char letter, const void *bytes, size_t length, const uint8_t *with)
{
    struct event *e = session + count++;
    e->letter = letter;
    e->bytes = copy(bytes, length);
    e->length = length;
    if (with)
        memcpy(e->seal, with, sizeof e->seal);
    e->outcome = again(e);
    if (e->outcome.length)
        e->given = copy(bytes_of(letter, e->outcome.kind)->at, e->outcome.length);
    if (letter == SAVE)
        memcpy(e->digest, digest.at, sizeof e->digest);
    e->memory = copy(memory.at, GUARD_MEMORY_LENGTH);
    clean_buffers();
    return e;
}

static void expect(const struct event *e, int kind)
{
    if (e->outcome.kind != kind)
        differ("an outcome of kind %d, not %d", e->outcome.kind, kind);
}

/* A call to its end; its number. */
static uint64_t call(const uint8_t *bytes, size_t length)
{
    uint8_t reply[GUARD_REPLY_LENGTH];
    const struct event *e = record(call_letter, bytes, length, NULL);
    while (e->outcome.kind == GUARD_ASK) {
        const struct event *asked = e;
        e = record(REPLY, reply, host_reply(asked->given, asked->outcome.length, reply), NULL);
        host_obey(asked->given, asked->outcome.length, reply);
    }
    expect(e, GUARD_DONE);
    return e->outcome.number;
}

/* Calls by path, with a mode or rights where these are not negative. */
static size_t path_call(uint8_t *to, int kind, int number, const char *path)
{
    size_t n = 0;
    to[n++] = (uint8_t)kind;
    if (number >= 0)
        to[n++] = (uint8_t)number;
    memcpy(to + n, path, strlen(path));
    return n + strlen(path);
}

static uint64_t at_path(int kind, int number, const char *path)
{
    uint8_t bytes[2 + GUARD_PATH_LENGTH];
    return call(bytes, path_call(bytes, kind, number, path));
}

static void refused_path(int kind, int number, const char *path)
{
    uint8_t bytes[2 + GUARD_PATH_LENGTH];
    expect(record(call_letter, bytes, path_call(bytes, kind, number, path), NULL), GUARD_REFUSED);
}

/* Calls by handle: with a number of so many bytes, or with `number` bytes of data. */
static uint64_t at_handle(int kind, uint64_t handle, uint64_t number, size_t width)
{
    uint8_t bytes[5 + GUARD_TRANSFER_LENGTH] = {(uint8_t)kind};
    for (size_t i = 0; i < 4; i++)
        bytes[1 + i] = (uint8_t)(handle >> 8 * i);
    for (size_t i = 0; i < width; i++)
        bytes[5 + i] = (uint8_t)(number >> 8 * i);
    if (kind == GUARD_WRITE)
        memset(bytes + 5, 'a' + (int)(count % 26), width = number);
    return call(bytes, 5 + width);
}

static uint64_t map(uint32_t length)
{
    const uint8_t bytes[] = {GUARD_MAP, (uint8_t)length, (uint8_t)(length >> 8), (uint8_t)(length >> 16), 0};
    return call(bytes, sizeof bytes);
}

static size_t unmap_call(uint8_t *to, uint64_t address)
{
    to[0] = GUARD_UNMAP;
    for (size_t i = 0; i < GUARD_ADDRESS_LENGTH; i++)
        to[1 + i] = (uint8_t)(address >> 8 * i);
    return 1 + GUARD_ADDRESS_LENGTH;
}

static void unmap(uint64_t address)
{
    uint8_t bytes[1 + GUARD_ADDRESS_LENGTH];
    size_t n = unmap_call(bytes, address);
    call(bytes, n);
    expect(record(CALL, bytes, n, NULL), GUARD_REFUSED);
}

static size_t rename_call(uint8_t *to, const char *first, const char *second)
{
    to[0] = GUARD_RENAME;
    to[1] = (uint8_t)strlen(first);
    memcpy(to + 2, first, strlen(first));
    memcpy(to + 2 + strlen(first), second, strlen(second));
    return 2 + strlen(first) + strlen(second);
}

static void rename_path(const char *first, const char *second)
{
    uint8_t bytes[2 + 2 * GUARD_PATH_LENGTH];
    call(bytes, rename_call(bytes, first, second));
}

static void refused_rename(const char *first, const char *second)
{
    uint8_t bytes[2 + 2 * GUARD_PATH_LENGTH];
    expect(record(call_letter, bytes, rename_call(bytes, first, second), NULL), GUARD_REFUSED);
}

/* A call whose first request finds the disk full: the host has done nothing, and nothing is pending. */
static void full(const uint8_t *bytes, size_t n)
{
    static const uint8_t disk_full[] = {0xe4, 0xff, 0xff, 0xff};
    expect(record(CALL, bytes, n, NULL), GUARD_ASK);
    expect(record(REPLY, disk_full, sizeof disk_full, NULL), GUARD_REFUSED);
}

static void full_path(int kind, int number, const char *path)
{
    uint8_t bytes[2 + GUARD_PATH_LENGTH];
    full(bytes, path_call(bytes, kind, number, path));
}

static void full_growth(uint64_t handle, uint8_t pages)
{
    const uint8_t bytes[13] = {GUARD_TRUNCATE, (uint8_t)handle, (uint8_t)(handle >> 8), (uint8_t)(handle >> 16),
        (uint8_t)(handle >> 24), 0, (uint8_t)(pages * 4)};
    full(bytes, sizeof bytes);
}

/* A read-only guard: each kind of call that it takes, and a few that it does not. */
static void look(uint64_t a)
{
    call_letter = LOOK;
    at_path(GUARD_STAT, -1, "/d/a");
    at_path(GUARD_READDIR, -1, "/d");
    refused_path(GUARD_OPEN, 2, "/d/a");
    refused_path(GUARD_CREATE, 7, "/new");
    refused_path(GUARD_REMOVE, -1, "/b");
    refused_path(GUARD_CHMOD, 8, "/b");
    refused_path(GUARD_STAT, -1, "/absent");
    refused_rename("/b", "/new");
    at_path(GUARD_OPEN, 1, "/d/a");
    at_handle(GUARD_SEEK, a, 1000, 8);
    at_handle(GUARD_READ, a, 30, 4);
    at_handle(GUARD_CLOSE, a, 0, 0);
    expect(record(SAVE, NULL, 0, NULL), GUARD_DONE);
    call_letter = CALL;
}

static void run_session(void)
{
    host_begin();
    expect(record(FRESH, NULL, 0, NULL), GUARD_DONE);
    at_path(GUARD_MKDIR, 7, "/d");
    at_path(GUARD_MKDIR, 5, "/d/e");
    uint64_t a = at_path(GUARD_CREATE, 6, "/d/a"), b = at_path(GUARD_CREATE, 7, "/b");
    refused_path(GUARD_CREATE, 7, "/b");
    refused_path(GUARD_STAT, -1, "/d/absent/x");
    at_path(GUARD_OPEN, 3, "/d/a");
    at_path(GUARD_OPEN, 2, "/b");
    at_handle(GUARD_WRITE, b, 100, 0);
    at_handle(GUARD_WRITE, a, 2500, 0);
    at_handle(GUARD_SEEK, a, 1000, 8);
    at_handle(GUARD_WRITE, a, 1100, 0);
    at_handle(GUARD_SEEK, a, 1, 8);
    at_handle(GUARD_READ, a, GUARD_TRANSFER_LENGTH, 4);
    at_handle(GUARD_TRUNCATE, a, 1030, 8);
    at_handle(GUARD_TRUNCATE, a, 3100, 8);
    full_path(GUARD_CREATE, 7, "/d/new");
    full_path(GUARD_MKDIR, 7, "/new");
    full_growth(a, 40);
    rename_path("/d", "/moved");
    refused_rename("/moved", "/moved/e/x");
    rename_path("/moved", "/d");
    at_path(GUARD_STAT, -1, "/d/a");
    at_path(GUARD_READDIR, -1, "/d");
    at_path(GUARD_CHMOD, 4, "/d/a");
    uint64_t first = map(GUARD_MAP_UNIT), second = map(2 * GUARD_MAP_UNIT);
    map(GUARD_MAP_LENGTH);
    unmap(first);
    at_handle(GUARD_CLOSE, a, 0, 0);
    at_handle(GUARD_CLOSE, b, 0, 0);
    const struct event *saved = record(SAVE, NULL, 0, NULL);
    expect(saved, GUARD_DONE);
    host_saved();
    at_path(GUARD_REMOVE, -1, "/b");
    at_path(GUARD_RMDIR, -1, "/d/e");
    expect(record(LOAD, saved->given, saved->outcome.length, saved->digest), GUARD_DONE);
    host_loaded();
    look(a);
    at_path(GUARD_OPEN, 1, "/d/a");
    at_handle(GUARD_READ, a, 1030, 4);
    unmap(second);
    expect(record(FRESH, NULL, 0, NULL), GUARD_DONE);
    host_begin();
    at_path(GUARD_CREATE, 7, "/n");
    refused_path(GUARD_OPEN, 4, "/n");
    uint8_t stat[2];
    expect(record(CALL, stat, path_call(stat, GUARD_STAT, -1, "/"), NULL), GUARD_ASK);
    expect(record(REPLY, "", 0, NULL), GUARD_STOPPED);
    expect(record(CALL, stat, sizeof stat, NULL), GUARD_REFUSED);
}

/* ---- zeros */

static int all_zero(const uint8_t *bytes, size_t n)
{
    return !n || (!bytes[0] && !memcmp(bytes, bytes + 1, n - 1));
}

static void refused_5(guard_outcome o)
{
    if (o.kind != GUARD_REFUSED || o.number != GUARD_STOPPED_FOR_GOOD)
        differ("an outcome of kind %d and number %llu, not refused 5", o.kind, (unsigned long long)o.number);
}

static void nothing_changed(void)
{
    if (!all_zero(memory.at, memory.length))
        differ("the memory is changed");
    if (!place_untouched(&answer, 0) || !place_untouched(&request, 0) || !place_untouched(&image, 0) ||
        !place_untouched(&digest, 0))
        differ("a buffer is touched");
}

/* Everything of the session, and a call of each kind. */
static void on_zeros(size_t answer_length, size_t request_length, size_t image_length)
{
    lend(answer_length, request_length, image_length);
    for (const struct event *e = session; e < session + count; e++) {
        if (e->letter == FRESH)
            continue;
        refused_5(again(e));
        nothing_changed();
    }
    for (int kind = 0; kind < 256; kind++) {
        refused_5(hand_in(CALL, (const uint8_t[]){(uint8_t)kind, '/'}, 2, NULL));
        nothing_changed();
        refused_5(hand_in(LOOK, (const uint8_t[]){(uint8_t)kind, '/'}, 2, NULL));
        nothing_changed();
    }
}

static void zeros(void)
{
    static const uint8_t none[GUARD_MEMORY_LENGTH + BLOCK];
    for (size_t more = 0; more <= BLOCK; more += BLOCK) {
        place_clear(&memory);
        place_hold(&memory, none, GUARD_MEMORY_LENGTH + more);
        on_zeros(GUARD_ANSWER_LENGTH, GUARD_REQUEST_LENGTH, GUARD_IMAGE_LENGTH);
        on_zeros(0, 0, 0);
    }
}

/* ---- longer */

static void same(const struct event *e, guard_outcome o)
{
    const guard_outcome *was = &e->outcome;
    if (o.kind != was->kind || o.number != was->number || o.length != was->length)
        differ("an outcome of kind %d, number %llu and %zu bytes, not as in the exact length", o.kind,
            (unsigned long long)o.number, o.length);
    if (o.length && memcmp(bytes_of(e->letter, o.kind)->at, e->given, o.length))
        differ("other bytes than in the exact length");
    if (e->letter == SAVE && memcmp(digest.at, e->digest, sizeof e->digest))
        differ("another digest than in the exact length");
}

/* The bytes that an outcome does not name. */
static void rest_untouched(char letter, guard_outcome o)
{
    const struct place *given = bytes_of(letter, o.kind), *buffers[] = {&answer, &request, &image};
    for (size_t i = 0; i < 3; i++)
        if (!place_untouched(buffers[i], buffers[i] == given ? o.length : 0))
            differ("%s is touched behind what is given out", buffers[i]->name);
}

static void session_in(size_t memory_length, size_t answer_length, size_t request_length, size_t image_length)
{
    static uint8_t behind[LONGEST];
    size_t more = memory_length - GUARD_MEMORY_LENGTH;
    place_clear(&memory);
    place_lend(&memory, memory_length);
    memcpy(behind, memory.at + GUARD_MEMORY_LENGTH, more);
    lend(answer_length, request_length, image_length);
    for (const struct event *e = session; e < session + count; e++) {
        guard_outcome o = again(e);
        same(e, o);
        rest_untouched(e->letter, o);
        clean_buffers();
        if (memcmp(behind, memory.at + GUARD_MEMORY_LENGTH, more))
            differ("the bytes behind the guard are changed");
    }
}

/* The low 16 bits of the longest are too short, or 0. */
static void longer(void)
{
    static const size_t more[] = {1, 7, BLOCK, GUARD_MEMORY_LENGTH, (1 << 16) + 100 - GUARD_MEMORY_LENGTH};
    for (size_t i = 0; i < sizeof more / sizeof *more; i++)
        session_in(GUARD_MEMORY_LENGTH + more[i], GUARD_ANSWER_LENGTH, GUARD_REQUEST_LENGTH, GUARD_IMAGE_LENGTH);
    session_in(GUARD_MEMORY_LENGTH, GUARD_ANSWER_LENGTH + 1, GUARD_REQUEST_LENGTH + 1, GUARD_IMAGE_LENGTH + 1);
    session_in(GUARD_MEMORY_LENGTH, 1 << 16, 1 << 16, 1 << 16);
    session_in(GUARD_MEMORY_LENGTH + BLOCK, 1 << 16, 1 << 16, 1 << 16);
}

/* ---- written by somebody else */

static uint64_t state;

static size_t below(size_t n)
{
    state = state * 6364136223846793005u + 1442695040888963407u;
    return (size_t)(state >> 33) % n;
}

/* The places whose bytes the session changes: what a guard goes by stands there. */
static size_t live[GUARD_MEMORY_LENGTH], live_count;

static void find_live(void)
{
    for (size_t i = 0; i < GUARD_MEMORY_LENGTH; i++)
        for (size_t k = 1; k < count; k++)
            if (session[k].memory[i] != session[0].memory[i]) {
                live[live_count++] = i;
                break;
            }
}

/* A few bytes that stand together, now and then a whole block or all from there on. */
static void overwrite(void)
{
    static const uint8_t edges[] = {0, 1, 0x7f, 0x80, 0xff};
    size_t at = below(4) ? live[below(live_count)] : below(GUARD_MEMORY_LENGTH);
    size_t n = below(20) ? (size_t)1 << below(4) : below(2) ? below(BLOCK) : GUARD_MEMORY_LENGTH;
    int is_random = (int)below(2);
    uint8_t edge = edges[below(sizeof edges)];
    for (size_t i = 0; i < n && at + i < GUARD_MEMORY_LENGTH; i++)
        memory.at[at + i] = is_random ? (uint8_t)below(256) : edge;
}

/* Mostly what came next in the session, which fits the pending request; else anything of it, or that with one byte
 * changed. */
static guard_outcome hand_in_some(size_t next)
{
    const struct event *e = session + (next < count && below(4) ? next : below(count));
    uint8_t bytes[GUARD_REPLY_LENGTH];
    while (e->letter == FRESH)
        e = session + below(count);
    if (!e->length || below(8))
        return again(e);
    memcpy(bytes, e->bytes, e->length);
    bytes[below(e->length)] = (uint8_t)below(256);
    return hand_in(e->letter, bytes, e->length, e->letter == LOAD ? e->seal : NULL);
}

static void follow(size_t next)
{
    int stopped = 0;
    for (size_t i = 0; i < FOLLOWING; i++) {
        guard_outcome o = hand_in_some(next + i);
        outcomes[o.kind]++;
        if (stopped)
            refused_5(o);
        after_stop += (unsigned long)stopped;
        stopped |= o.kind == GUARD_STOPPED;
    }
    clean_buffers();
}

/* Made fresh, it is a guard again. */
static void begin_again(void)
{
    for (const struct event *e = session; e < session + FOLLOWING; e++)
        same(e, again(e));
    clean_buffers();
}

static void one_second(void)
{
    static const struct itimerval second = {{0, 0}, {1, 0}};
    setitimer(ITIMER_PROF, &second, NULL);
}

static void written(size_t cases)
{
    find_live();
    place_clear(&memory);
    lend(GUARD_ANSWER_LENGTH, GUARD_REQUEST_LENGTH, GUARD_IMAGE_LENGTH);
    for (size_t i = 0; i < cases; i++) {
        size_t from = below(count);
        one_second();
        place_hold(&memory, session[from].memory, GUARD_MEMORY_LENGTH);
        for (size_t k = below(WRITES) + 1; k > 0; k--)
            overwrite();
        follow(from + 1);
        if (i % 8 == 0)
            begin_again();
    }
    if (!outcomes[GUARD_DONE] || !outcomes[GUARD_ASK] || !outcomes[GUARD_REFUSED] || !outcomes[GUARD_STOPPED] ||
        !after_stop)
        differ("some kind of outcome never came");
}

/* ---- the whole */

static void set_up(int high)
{
    static const int signals[] = {SIGSEGV, SIGBUS, SIGILL, SIGFPE, SIGABRT, SIGPROF};
    for (size_t i = 0; i < sizeof signals / sizeof *signals; i++)
        signal(signals[i], on_signal);
    places_begin(high);
    memory = place_for("the memory", LONGEST);
    answer = place_for("the answer", 1 << 16);
    request = place_for("the request", 1 << 16);
    image = place_for("the image", 1 << 16);
    digest = place_for("the digest", GUARD_DIGEST_LENGTH);
    input = place_for("the input", 1 << 17);
    seal = place_for("the digest handed in", GUARD_DIGEST_LENGTH);
}

int main(int n, char **words)
{
    if (n != 3 || (strcmp(words[1], "low") && strcmp(words[1], "high")))
        return 2;
    set_up(!strcmp(words[1], "high"));
    place_lend(&memory, GUARD_MEMORY_LENGTH);
    lend(GUARD_ANSWER_LENGTH, GUARD_REQUEST_LENGTH, GUARD_IMAGE_LENGTH);
    run_session();
    part = "zeros";
    zeros();
    part = "longer";
    longer();
    part = "written";
    written(strtoul(words[2], NULL, 10));
    printf("%lu events; in written memories %lu done, %lu asks, %lu refused, %lu stops, %lu after a stop\n", events,
        outcomes[GUARD_DONE],
           outcomes[GUARD_ASK], outcomes[GUARD_REFUSED], outcomes[GUARD_STOPPED], after_stop);
    return 0;
}
