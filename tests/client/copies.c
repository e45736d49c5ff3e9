/* The client layer of guard_client.h over a host that changes the shared memory while an entry runs. Everything comes
 * back as it does over a host that keeps still, or the change is caught. Then lengths at their limits, in buffers of
 * exactly those lengths, and what is kept of a stop. With the word "torn" the second of the two tests of changes alone.
 * Linked with --wrap for the entries. Ends with status 1 where something differs. */
#define _DEFAULT_SOURCE /* mmap's MAP_ANONYMOUS */
#include <guard_client.h>
#include <signal.h>
#include <stdio.h>
#include <stdlib.h>
#include <string.h>
#include <sys/mman.h>
#include <unistd.h>

static guard g;
static guard_client c;
static guard_reader looked;
static guard_reader_client looker;
static uint8_t *request, *reply, *image; /* what the host can write, each exactly as long as it must be */
static uint8_t call[GUARD_CALL_LENGTH], digest[GUARD_DIGEST_LENGTH];
static int checks, wrong;

static void check(int is_right, const char *what)
{
    checks++;
    if (is_right)
        return;
    printf("client: %s\n", what);
    wrong = 1;
}

static void expect(guard_outcome o, int kind, uint64_t number, const char *what)
{
    int is_right = o.kind == kind && o.number == number;
    check(is_right, what);
    if (!is_right)
        printf("client: it is %s %lu\n", guard_outcome_name(o.kind), (unsigned long)o.number);
}

/* ---- a host that changes all that is shared when an entry begins */

enum { STILL, MEDDLING };
static int hand;

static void turn(uint8_t *bytes, size_t n)
{
    for (size_t i = 0; i < n; i++)
        bytes[i] ^= 0x5a;
}

static void meddle(void)
{
    if (hand == STILL)
        return;
    turn(request, GUARD_REQUEST_LENGTH);
    turn(reply, GUARD_REPLY_LENGTH);
    turn(image, GUARD_IMAGE_LENGTH);
}

#define WRAP(name, parameters, words)                    \
    guard_outcome __real_guard_entry_##name parameters;  \
    guard_outcome __wrap_guard_entry_##name parameters;  \
    guard_outcome __wrap_guard_entry_##name parameters   \
    {                                                    \
        meddle();                                        \
        return __real_guard_entry_##name words;          \
    }
#define CARRIED (uint8_t *m, size_t n, const uint8_t *b, size_t bn, uint8_t *a, size_t an, uint8_t *r, size_t rn)
WRAP(call, CARRIED, (m, n, b, bn, a, an, r, rn))
WRAP(reader_call, CARRIED, (m, n, b, bn, a, an, r, rn))
WRAP(reply, CARRIED, (m, n, b, bn, a, an, r, rn))
WRAP(save, (uint8_t *m, size_t n, uint8_t *i, size_t in, uint8_t *d), (m, n, i, in, d))
WRAP(load, (uint8_t *m, size_t n, const uint8_t *i, size_t in, const uint8_t *d, size_t dn), (m, n, i, in, d, dn))

/* ---- an honest host of files by descriptor, over the shared memory */

static uint8_t pages[32][GUARD_FILE_PAGES][GUARD_PAGE_LENGTH];
static uint32_t next_id, listed;
static int32_t next_descriptor;
static uint64_t next_address;

static size_t put_names(void)
{
    size_t n = 0;
    char name[40];
    for (uint32_t i = 0; i < listed; i++) {
        guard_dirent e = {2 + i, GUARD_FILE, GUARD_NAME_LENGTH, name};
        snprintf(name, sizeof name, "%032u", (unsigned)i);
        n = guard_dirent_reply(reply, GUARD_REPLY_LENGTH, n, &e);
    }
    return n;
}

static size_t put_map(size_t length)
{
    static const uint8_t zeros[GUARD_MAP_LENGTH];
    next_address -= GUARD_MAP_LENGTH;
    return guard_map_reply(reply, GUARD_REPLY_LENGTH, next_address, zeros, length);
}

static size_t host(const guard_client *of)
{
    guard_request r;
    if (!guard_get_request(request, of->request_length, &r))
        return 0;
    switch (r.kind) {
    case GUARD_CREATE: return guard_id_reply(reply, GUARD_REPLY_LENGTH, next_id++);
    case GUARD_OPEN: return guard_descriptor_reply(reply, GUARD_REPLY_LENGTH, next_descriptor++);
    case GUARD_FETCH: return guard_page_reply(reply, GUARD_REPLY_LENGTH, pages[r.descriptor][r.page],
        GUARD_PAGE_LENGTH);
    case GUARD_STORE:
        memcpy(pages[r.descriptor][r.page], r.bytes, GUARD_PAGE_LENGTH);
        return guard_status_reply(reply, GUARD_REPLY_LENGTH, GUARD_PAGE_LENGTH);
    case GUARD_READDIR: return put_names();
    case GUARD_MAP: return put_map(r.length);
    default: return guard_status_reply(reply, GUARD_REPLY_LENGTH, 0);
    }
}

/* ---- what a run comes to, written down */

static uint8_t records[2][1 << 18];
static size_t recorded;

static void record(const void *bytes, size_t n)
{
    guard_copy(records[hand] + recorded, bytes, n);
    recorded += n;
}

static guard_outcome recorded_outcome(guard_outcome o, const uint8_t *bytes)
{
    record(&o.kind, sizeof o.kind);
    record(&o.number, sizeof o.number);
    record(bytes, o.length);
    return o;
}

static guard_outcome carry(size_t n)
{
    guard_outcome o = guard_client_call(&c, call, n, request, GUARD_REQUEST_LENGTH);
    while (recorded_outcome(o, o.kind == GUARD_ASK ? request : c.answer).kind == GUARD_ASK)
        o = guard_client_reply(&c, reply, host(&c), request, GUARD_REQUEST_LENGTH);
    check(o.kind != GUARD_DONE || c.request_length == 0, "done, and nothing is pending");
    return o;
}

/* The same through a read-only guard. */
static guard_outcome look(size_t n)
{
    guard_outcome o = guard_reader_client_call(&looker, call, n, request, GUARD_REQUEST_LENGTH);
    while (recorded_outcome(o, o.kind == GUARD_ASK ? request : looker.layer.answer).kind == GUARD_ASK)
        o = guard_reader_client_reply(&looker, reply, host(&looker.layer), request, GUARD_REQUEST_LENGTH);
    check(o.kind != GUARD_DONE || looker.layer.request_length == 0, "done, and nothing is pending");
    return o;
}

/* A read-only guard; the host's files are those of the guard before, from the first descriptor on. */
static guard_outcome start_looking(const uint8_t *from, size_t n)
{
    guard_reader_client_fresh(&looker, &looked);
    next_descriptor = 0;
    return guard_reader_client_load(&looker, from, n, digest, sizeof digest);
}

static void start(void)
{
    guard_client_fresh(&c, &g);
    next_id = 2;
    next_descriptor = 0;
    next_address = 0; /* the first map ends where the space does */
    listed = 1;
}

static const char name[] = "/00000000000000000000000000000000";

/* The file of `run` on a read-only guard: what it takes, what it refuses, and a save of what was loaded. */
static void run_looking(size_t length)
{
    static uint8_t kept[GUARD_IMAGE_LENGTH];
    memcpy(kept, image, length);
    expect(recorded_outcome(start_looking(image, length), NULL), GUARD_DONE, 0, "a load to look");
    expect(look(guard_open_call(call, sizeof call, name, GUARD_RIGHT_BOTH)), GUARD_REFUSED, GUARD_READ_ONLY,
        "open to write");
    expect(look(guard_open_call(call, sizeof call, name, GUARD_RIGHT_READ)), GUARD_DONE, 2, "open to look");
    expect(look(guard_seek_call(call, sizeof call, 2, 990)), GUARD_DONE, 990, "seek to look");
    expect(look(guard_read_call(call, sizeof call, 2, GUARD_TRANSFER_LENGTH)), GUARD_DONE, 510, "read to look");
    check(!memcmp(looker.layer.answer, "ttttttttttover the edge of a page.t", 35), "the bytes that are shown");
    expect(look(guard_write_call(call, sizeof call, 2, "x", 1)), GUARD_REFUSED, GUARD_READ_ONLY, "write");
    expect(look(guard_close_call(call, sizeof call, 2)), GUARD_DONE, 0, "close what was shown");
    expect(look(guard_readdir_call(call, sizeof call, "/")), GUARD_DONE, 1, "list what is shown");
    expect(look(guard_create_call(call, sizeof call, "/b", 7)), GUARD_REFUSED, GUARD_READ_ONLY, "create");
    expect(look(guard_map_call(call, sizeof call, 4096)), GUARD_REFUSED, GUARD_READ_ONLY, "map");
    expect(look(guard_rename_call(call, sizeof call, name, "/b")), GUARD_REFUSED, GUARD_READ_ONLY, "rename");
    expect(recorded_outcome(guard_reader_client_save(&looker, image, GUARD_IMAGE_LENGTH, digest), image), GUARD_DONE,
        length, "a save of what was loaded");
    check(!memcmp(image, kept, length), "which is the same image");
    record(digest, sizeof digest);
    record(looked.memory, sizeof looked.memory);
}

/* A file written over a page's edge and read, a listing, a save and a load; then a read-only guard over the same. */
static void run(void)
{
    uint8_t bytes[1500];
    memset(bytes, 't', sizeof bytes);
    recorded = 0;
    start();
    expect(carry(guard_create_call(call, sizeof call, name, 7)), GUARD_DONE, 2, "create");
    expect(carry(guard_open_call(call, sizeof call, name, GUARD_RIGHT_BOTH)), GUARD_DONE, 2, "open");
    expect(carry(guard_write_call(call, sizeof call, 2, bytes, sizeof bytes)), GUARD_DONE, 1500, "write");
    expect(carry(guard_seek_call(call, sizeof call, 2, 1000)), GUARD_DONE, 1000, "seek");
    expect(carry(guard_write_call(call, sizeof call, 2, "over the edge of a page.", 24)), GUARD_DONE, 24,
        "write over the edge");
    expect(carry(guard_seek_call(call, sizeof call, 2, 990)), GUARD_DONE, 990, "seek back");
    expect(carry(guard_read_call(call, sizeof call, 2, GUARD_TRANSFER_LENGTH)), GUARD_DONE, 510, "read");
    check(!memcmp(c.answer, "ttttttttttover the edge of a page.t", 35), "the bytes of a read");
    expect(carry(guard_close_call(call, sizeof call, 2)), GUARD_DONE, 0, "close");
    expect(carry(guard_readdir_call(call, sizeof call, "/")), GUARD_DONE, 1, "readdir");
    expect(carry(guard_map_call(call, sizeof call, GUARD_MAP_LENGTH)), GUARD_DONE, UINT64_MAX - 65535, "map");
    expect(carry(guard_rename_call(call, sizeof call, name, "/b")), GUARD_DONE, 0, "rename");
    expect(carry(guard_rename_call(call, sizeof call, "/b", name)), GUARD_DONE, 0, "rename back");
    guard_outcome o = recorded_outcome(guard_client_save(&c, image, GUARD_IMAGE_LENGTH, digest), image);
    expect(o, GUARD_DONE, 4 + 15 + 47 + 4 + 64, "save");
    record(digest, sizeof digest);
    recorded_outcome(guard_client_load(&c, image, o.length, digest, sizeof digest), NULL);
    expect(carry(guard_create_call(call, sizeof call, name, 7)), GUARD_REFUSED, GUARD_PRESENT, "after the load");
    expect(carry(guard_unmap_call(call, sizeof call, UINT64_MAX - 65535)), GUARD_DONE, 0, "unmap after the load");
    record(g.memory, sizeof g.memory);
    run_looking(guard_client_save(&c, image, GUARD_IMAGE_LENGTH, digest).length);
}

static void meddled(void)
{
    size_t n;
    hand = STILL;
    run();
    n = recorded;
    hand = MEDDLING;
    run();
    check(recorded == n && !memcmp(records[MEDDLING], records[STILL], n), "changed when an entry begins");
    hand = STILL;
}

/* ---- a host that changes the first bytes when those behind them are touched for the first time
 *
 * So the change falls between two looks of the guard at one page, image or request, where these are shared: what was
 * hashed is not what is then used. The bytes lie across the edge of a page of the machine, and what is behind the edge
 * may not be touched until someone does. */

static uint8_t *place, *torn; /* memory of the machine's pages, and where bytes begin in it */
static size_t machine_page, first;
static volatile sig_atomic_t armed;

static void touched(int number)
{
    if (!armed) {
        signal(number, SIG_DFL);
        return;
    }
    armed = 0;
    mprotect(place + machine_page, GUARD_IMAGE_LENGTH, PROT_READ | PROT_WRITE);
    turn(torn, first);
}

static void arm(int is_armed)
{
    if (!is_armed)
        return;
    armed = 1;
    mprotect(place + machine_page, GUARD_IMAGE_LENGTH, PROT_NONE);
}

/* So many bytes lie before the edge. */
static void lay(size_t before)
{
    first = before;
    torn = place + machine_page - before;
}

static int make_place(void)
{
    machine_page = (size_t)sysconf(_SC_PAGESIZE);
    place = (uint8_t *)mmap(NULL, machine_page + GUARD_IMAGE_LENGTH, PROT_READ | PROT_WRITE,
        MAP_PRIVATE | MAP_ANONYMOUS, -1, 0);
    lay(64);
    return place != MAP_FAILED && signal(SIGSEGV, touched) != SIG_ERR;
}

static const uint8_t text[1500] =
    "These are the first bytes of a page, and a host would have others believed in their place.";

/* A file of 1,500 bytes, open. */
static void make_file(void)
{
    recorded = 0;
    start();
    carry(guard_create_call(call, sizeof call, "/a", 7));
    carry(guard_open_call(call, sizeof call, "/a", GUARD_RIGHT_BOTH));
    carry(guard_write_call(call, sizeof call, 2, text, sizeof text));
}

static guard_outcome torn_reply(int is_armed)
{
    make_file();
    carry(guard_seek_call(call, sizeof call, 2, 0));
    guard_client_call(&c, call, guard_read_call(call, sizeof call, 2, 1000), NULL, 0);
    memcpy(torn, pages[0][0], GUARD_PAGE_LENGTH);
    arm(is_armed);
    return guard_client_reply(&c, torn, GUARD_PAGE_LENGTH, NULL, 0);
}

static guard_outcome torn_request(int is_armed)
{
    make_file();
    carry(guard_seek_call(call, sizeof call, 2, 0));
    guard_client_call(&c, call, guard_write_call(call, sizeof call, 2, "at the front", 12), NULL, 0);
    size_t n = guard_page_reply(reply, GUARD_REPLY_LENGTH, pages[0][0], GUARD_PAGE_LENGTH);
    lay(512); /* the fetched page is copied to the store in steps: those before the edge are done */
    arm(is_armed);
    guard_client_reply(&c, reply, n, torn, GUARD_REQUEST_LENGTH);
    lay(64);
    return guard_client_reply(&c, reply, guard_status_reply(reply, 4, GUARD_PAGE_LENGTH), NULL, 0);
}

static guard_outcome torn_save(int is_armed)
{
    make_file();
    carry(guard_close_call(call, sizeof call, 2));
    arm(is_armed);
    return guard_client_save(&c, torn, GUARD_IMAGE_LENGTH, digest);
}

static guard_outcome torn_load(int is_armed)
{
    guard_outcome o = torn_save(0);
    start();
    arm(is_armed);
    return guard_client_load(&c, torn, o.length, digest, sizeof digest);
}

/* The file of 1,500 bytes on a read-only guard. */
static void make_looked(void)
{
    make_file();
    carry(guard_close_call(call, sizeof call, 2));
    start_looking(image, guard_client_save(&c, image, GUARD_IMAGE_LENGTH, digest).length);
}

static guard_outcome torn_look(int is_armed)
{
    make_looked();
    look(guard_open_call(call, sizeof call, "/a", GUARD_RIGHT_READ));
    guard_reader_client_call(&looker, call, guard_read_call(call, sizeof call, 2, 1000), NULL, 0);
    memcpy(torn, pages[0][0], GUARD_PAGE_LENGTH);
    arm(is_armed);
    return guard_reader_client_reply(&looker, torn, GUARD_PAGE_LENGTH, NULL, 0);
}

static guard_outcome torn_looked_save(int is_armed)
{
    make_looked();
    arm(is_armed);
    return guard_reader_client_save(&looker, torn, GUARD_IMAGE_LENGTH, digest);
}

static guard_outcome torn_looked_load(int is_armed)
{
    guard_outcome o = torn_save(0);
    arm(is_armed);
    return start_looking(torn, o.length);
}

static guard_outcome torn_map(int is_armed)
{
    start();
    guard_client_call(&c, call, guard_map_call(call, sizeof call, 8192), NULL, 0);
    size_t n = put_map(8192);
    memcpy(torn, reply, n);
    arm(is_armed);
    return guard_client_reply(&c, torn, n, NULL, 0);
}

/* The same as over a host that keeps still; or caught, where the copy itself met the change. */
static void tear(guard_outcome (*event)(int), const char *what)
{
    static guard kept;
    static guard_reader kept_looked;
    static uint8_t answer[GUARD_ANSWER_LENGTH];
    const uint8_t *given = event == torn_look ? looker.layer.answer : c.answer;
    uint8_t kept_digest[GUARD_DIGEST_LENGTH];
    guard_outcome still = event(0);
    kept = g;
    kept_looked = looked;
    memcpy(answer, given, still.length < sizeof answer ? still.length : 0);
    memcpy(kept_digest, digest, sizeof digest);
    guard_outcome o = event(1);
    check(!armed && still.kind == GUARD_DONE, "it was changed, and else it is done");
    if ((o.kind == GUARD_STOPPED && (o.number == GUARD_STOP_PAGE || o.number == GUARD_STOP_MAP)) ||
        (o.kind == GUARD_REFUSED && o.number == GUARD_WRONG_DIGEST))
        return;
    expect(o, still.kind, still.number, what);
    check(!memcmp(&g, &kept, sizeof g) && !memcmp(digest, kept_digest, sizeof digest), what);
    check(!memcmp(&looked, &kept_looked, sizeof looked), what);
    check((event != torn_reply && event != torn_look) || !memcmp(given, answer, still.length), what);
}

static void tears(void)
{
    tear(torn_reply, "a page changed under the guard");
    tear(torn_request, "a request changed under the guard");
    tear(torn_save, "an image changed while it was saved");
    tear(torn_load, "an image changed while it was loaded");
    tear(torn_map, "a map changed under the guard");
    tear(torn_look, "a page changed under a read-only guard");
    tear(torn_looked_save, "an image changed while a read-only guard saved it");
    tear(torn_looked_load, "an image changed while a read-only guard loaded it");
}

/* ---- what is kept of a stop */

static guard_outcome replied(size_t claimed) { return guard_client_reply(&c, reply, claimed, NULL, 0); }

static void stops(void)
{
    start();
    recorded = 0;
    expect(carry(guard_create_call(call, sizeof call, "/a", 7)), GUARD_DONE, 2, "create");
    check(c.request_length == 0 && c.reason == 0, "nothing pending");
    expect(guard_client_call(&c, call, guard_open_call(call, sizeof call, "/a", 1), NULL, 0), GUARD_ASK, 0, "open");
    check(c.request_length == 4 && !memcmp(c.request, "\3\1/a", 4), "the pending request is kept");
    expect(guard_client_call(&c, call, guard_stat_call(call, sizeof call, "/"), NULL, 0), GUARD_REFUSED, GUARD_PENDING,
        "a call while it is pending");
    check(c.request_length == 4 && c.reason == 0, "a refusal leaves it pending");
    expect(guard_client_reply(&c, reply, guard_descriptor_reply(reply, 4, -1), NULL, 0), GUARD_STOPPED,
        GUARD_STOP_DESCRIPTOR, "a stop");
    expect(guard_client_call(&c, call, guard_stat_call(call, sizeof call, "/"), NULL, 0), GUARD_REFUSED,
        GUARD_STOPPED_FOR_GOOD, "after a stop");
    check(c.reason == GUARD_STOP_DESCRIPTOR && c.request_length == 4 && !memcmp(c.request, "\3\1/a", 4),
        "the reason and the request are kept");
    start();
    check(c.reason == 0 && c.request_length == 0, "a fresh client");
}

/* The same of a read-only guard; and 34 comes before 30. */
static void looked_stops(void)
{
    make_looked();
    size_t n = guard_create_call(call, sizeof call, "/b", 7);
    expect(guard_reader_client_call(&looker, call, n, request, GUARD_REQUEST_LENGTH - 1), GUARD_REFUSED,
        GUARD_SHORT_BUFFER, "a short request buffer of a read-only guard");
    expect(guard_reader_client_call(&looker, call, n, request, GUARD_REQUEST_LENGTH), GUARD_REFUSED, GUARD_READ_ONLY,
        "one that is long enough");
    n = guard_open_call(call, sizeof call, "/a", 1);
    expect(guard_reader_client_call(&looker, call, n, NULL, 0), GUARD_ASK, 0, "an open of a read-only guard");
    check(looker.layer.request_length == 4 && !memcmp(looker.layer.request, "\3\1/a", 4), "its request is kept");
    expect(guard_reader_client_reply(&looker, reply, guard_descriptor_reply(reply, 4, -1), NULL, 0), GUARD_STOPPED,
        GUARD_STOP_DESCRIPTOR, "a stop of a read-only guard");
    check(looker.layer.reason == GUARD_STOP_DESCRIPTOR, "its reason is kept");
    guard_reader_client_fresh(&looker, &looked);
    check(looker.layer.reason == 0 && looker.layer.request_length == 0, "a fresh client of a read-only guard");
}

/* ---- a full disk, which ends a request */

static guard_outcome says_full(uint8_t *to, size_t room)
{
    return guard_client_reply(&c, reply, guard_full_reply(reply, GUARD_REPLY_LENGTH), to, room);
}

static guard_outcome begin(size_t n) { return guard_client_call(&c, call, n, NULL, 0); }

static void full_creates(void)
{
    start();
    recorded = 0;
    expect(begin(guard_create_call(call, sizeof call, "/a", 7)), GUARD_ASK, 0, "create");
    expect(says_full(request, 4), GUARD_REFUSED, GUARD_SHORT_BUFFER, "with a short buffer");
    check(c.request_length == 4, "a refusal that is not 28 leaves it pending");
    expect(says_full(NULL, 0), GUARD_REFUSED, GUARD_FULL, "create on a full disk");
    check(c.request_length == 0 && c.reason == 0, "a full disk has ended the request");
    expect(says_full(NULL, 0), GUARD_REFUSED, GUARD_NOT_PENDING, "another reply");
    expect(carry(guard_create_call(call, sizeof call, "/a", 7)), GUARD_DONE, 2, "create with room");
}

/* One page of three has room, then none. */
static void full_writes(void)
{
    static uint8_t bytes[3000];
    expect(carry(guard_open_call(call, sizeof call, "/a", 3)), GUARD_DONE, 2, "open");
    expect(begin(guard_write_call(call, sizeof call, 2, bytes, sizeof bytes)), GUARD_ASK, 0, "write");
    expect(guard_client_reply(&c, reply, guard_status_reply(reply, 4, 1024), NULL, 0), GUARD_ASK, 0, "the first page");
    expect(says_full(NULL, 0), GUARD_DONE, 1024, "a write that is done in part");
    check(c.request_length == 0, "which is over");
    expect(begin(guard_write_call(call, sizeof call, 2, bytes, 1)), GUARD_ASK, 0, "write on");
    check(c.request[5] == 1, "from the second page on");
    expect(says_full(NULL, 0), GUARD_REFUSED, GUARD_FULL, "no page has room");
    expect(begin(guard_truncate_call(call, sizeof call, 2, 4096)), GUARD_ASK, 0, "a growth");
    expect(says_full(NULL, 0), GUARD_REFUSED, GUARD_FULL, "has no room");
    check(c.request_length == 0 && c.reason == 0, "nothing has stopped");
}

/* ---- lengths */

static void short_request(void)
{
    start();
    size_t n = guard_create_call(call, sizeof call, "/a", 7);
    expect(guard_client_call(&c, call, n, request, GUARD_REQUEST_LENGTH - 1), GUARD_REFUSED, GUARD_SHORT_BUFFER,
        "a short request buffer");
    expect(guard_client_call(&c, call, n, request, GUARD_REQUEST_LENGTH), GUARD_ASK, 0, "one that is long enough");
    expect(guard_client_reply(&c, reply, guard_id_reply(reply, 4, 2), request, 0), GUARD_REFUSED, GUARD_SHORT_BUFFER,
        "a short one with a reply");
    expect(guard_client_reply(&c, reply, 4, request, SIZE_MAX), GUARD_DONE, 2, "the same reply again");
}

/* Claims of a status reply: its 4 bytes, one less, one more, and far more than there are. */
static void claims(void)
{
    static const struct { size_t claimed; uint64_t reason; } rows[] = {{0, 1}, {3, 1}, {5, 1}, {GUARD_REPLY_LENGTH, 1},
        {GUARD_REPLY_LENGTH + 1, 1}, {SIZE_MAX, 1}};
    for (size_t i = 0; i < sizeof rows / sizeof *rows; i++) {
        start();
        guard_client_call(&c, call, guard_chmod_call(call, sizeof call, "/", 7), NULL, 0);
        memset(reply, 0, GUARD_REPLY_LENGTH);
        expect(replied(rows[i].claimed), GUARD_STOPPED, rows[i].reason, "a claimed length");
    }
}

/* The longest listing and the longest image: 255 files with names of 32 bytes, 16 of them with 64 pages. */
static void fill(void)
{
    char path[40];
    uint8_t bytes[GUARD_TRANSFER_LENGTH];
    start();
    for (uint32_t i = 0; i < GUARD_NODES - 1; i++) {
        snprintf(path, sizeof path, "/%032u", (unsigned)i);
        recorded = 0;
        expect(carry(guard_create_call(call, sizeof call, path, 7)), GUARD_DONE, 2 + i, "create of 255");
        if (i >= GUARD_PAGES / GUARD_FILE_PAGES)
            continue;
        carry(guard_open_call(call, sizeof call, path, GUARD_RIGHT_WRITE));
        memset(bytes, (int)i, sizeof bytes);
        for (int k = 0; k < GUARD_FILE_LENGTH / GUARD_TRANSFER_LENGTH; k++) {
            recorded = 0;
            expect(carry(guard_write_call(call, sizeof call, 2 + i, bytes, sizeof bytes)), GUARD_DONE, sizeof bytes,
                "write of 4,096");
        }
        expect(carry(guard_close_call(call, sizeof call, 2 + i)), GUARD_DONE, 0, "close");
    }
    listed = GUARD_NODES - 1;
    recorded = 0;
}

static void longest_listing(void)
{
    guard_dirent e;
    size_t at = 0, n = guard_readdir_call(call, sizeof call, "/");
    unsigned entries = 0;
    expect(carry(n), GUARD_DONE, GUARD_NODES - 1, "the longest listing");
    while (guard_get_dirent(c.answer, GUARD_ANSWER_LENGTH, &at, &e))
        entries += e.id == 2 + entries && e.kind == GUARD_FILE && e.name_length == GUARD_NAME_LENGTH;
    check(entries == GUARD_NODES - 1 && at == GUARD_ANSWER_LENGTH, "its entries");
    guard_client_call(&c, call, n, NULL, 0);
    expect(replied(GUARD_ANSWER_LENGTH + 1), GUARD_STOPPED, GUARD_STOP_LISTING, "one byte more");
}

/* The longest map from its reply's own 65,544 bytes; one byte less and claims of more; a last byte that is not zero. */
static void longest_map(void)
{
    static const size_t claimed[] = {GUARD_REPLY_LENGTH - 1, GUARD_REPLY_LENGTH + 1, SIZE_MAX};
    size_t n = guard_map_call(call, sizeof call, GUARD_MAP_LENGTH);
    for (size_t i = 0; i < sizeof claimed / sizeof *claimed; i++) {
        start();
        guard_client_call(&c, call, n, NULL, 0);
        put_map(GUARD_MAP_LENGTH);
        expect(replied(claimed[i]), GUARD_STOPPED, GUARD_STOP_LENGTH, "a map of another length");
    }
    start();
    recorded = 0;
    expect(carry(n), GUARD_DONE, UINT64_MAX - 65535, "the longest map");
    guard_client_call(&c, call, n, NULL, 0);
    put_map(GUARD_MAP_LENGTH);
    reply[GUARD_REPLY_LENGTH - 1] = 1;
    expect(replied(GUARD_REPLY_LENGTH), GUARD_STOPPED, GUARD_STOP_MAP, "a last byte that is not zero");
}

static void longest_image(void)
{
    uint8_t kept[GUARD_DIGEST_LENGTH];
    memset(digest, 0, sizeof digest);
    memset(image, 0, GUARD_IMAGE_LENGTH);
    expect(guard_client_save(&c, image, GUARD_IMAGE_LENGTH - 1, digest), GUARD_REFUSED, GUARD_SHORT_BUFFER,
        "a short image buffer");
    check(digest[0] == 0 && image[0] == 0 && image[4] == 0, "a refused save writes nothing");
    expect(guard_client_save(&c, image, SIZE_MAX, digest), GUARD_DONE, GUARD_IMAGE_LENGTH, "the longest image");
    memcpy(kept, digest, sizeof kept);
    expect(guard_client_load(&c, image, GUARD_IMAGE_LENGTH + 1, digest, 32), GUARD_REFUSED, GUARD_WRONG_DIGEST,
        "one byte more");
    expect(guard_client_load(&c, image, SIZE_MAX, digest, 32), GUARD_REFUSED, GUARD_WRONG_DIGEST,
        "far more than there are");
    expect(guard_client_load(&c, image, GUARD_IMAGE_LENGTH - 1, digest, 32), GUARD_REFUSED, GUARD_WRONG_DIGEST,
        "one byte less");
    expect(guard_client_load(&c, image, GUARD_IMAGE_LENGTH, digest, 31), GUARD_REFUSED, GUARD_WRONG_DIGEST,
        "a digest of 31 bytes");
    expect(guard_client_load(&c, NULL, 0, digest, 32), GUARD_REFUSED, GUARD_WRONG_DIGEST, "no image");
    image[GUARD_IMAGE_LENGTH - 1] ^= 1;
    expect(guard_client_load(&c, image, GUARD_IMAGE_LENGTH, digest, 32), GUARD_REFUSED, GUARD_WRONG_DIGEST,
        "a changed byte");
    image[GUARD_IMAGE_LENGTH - 1] ^= 1;
    start();
    listed = GUARD_NODES - 1;
    expect(guard_client_load(&c, image, GUARD_IMAGE_LENGTH, digest, 32), GUARD_DONE, 0, "the longest image loaded");
    expect(guard_client_save(&c, image, GUARD_IMAGE_LENGTH, digest), GUARD_DONE, GUARD_IMAGE_LENGTH, "and saved again");
    check(!memcmp(kept, digest, sizeof kept), "it is the same");
}

static void lengths(void)
{
    short_request();
    claims();
    longest_map();
    fill();
    longest_image();
    longest_listing();
}

int main(int words, char **word)
{
    request = (uint8_t *)calloc(1, GUARD_REQUEST_LENGTH);
    reply = (uint8_t *)calloc(1, GUARD_REPLY_LENGTH);
    image = (uint8_t *)calloc(1, GUARD_IMAGE_LENGTH);
    if (!request || !reply || !image || !make_place())
        return 2;
    if (words < 2 || strcmp(word[1], "torn")) {
        meddled();
        stops();
        looked_stops();
        full_creates();
        full_writes();
        lengths();
    }
    tears();
    free(request);
    free(reply);
    free(image);
    printf("client: %d checks of the layer\n", checks);
    return wrong;
}
