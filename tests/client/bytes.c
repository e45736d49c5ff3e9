/* Each function of guard_client.h that builds or reads bytes, beside bytes written by hand from docs/SPECIFICATION.md
 * (4.1, 5.1, 5.5), in a buffer of each length up to one more than is needed; and the words. In C and C++. Ends with
 * status 1 where something differs. */
#include <guard_client.h>
#include <stdio.h>
#include <string.h>

enum { UNTOUCHED = 0xee };

static uint8_t to[2 * GUARD_ANSWER_LENGTH];
static size_t room;
static int checks, wrong;

static void check(int is_right, const char *what)
{
    checks++;
    if (is_right)
        return;
    printf("client: %s, with room for %lu\n", what, (unsigned long)room);
    wrong = 1;
}

static void built(size_t got, const void *expected, size_t n, const char *what)
{
    size_t at = room < n ? 0 : n;
    check(got == at && memcmp(to, expected, at) == 0, what);
    while (at < sizeof to && to[at] == UNTOUCHED)
        at++;
    check(at == sizeof to, what);
}

/* What is built where there is room for it, and 0 where there is not. */
#define BUILDS_N(bytes, n, call)                  \
    for (room = 0; room <= (n) + 1; room++) {     \
        memset(to, UNTOUCHED, sizeof to);         \
        built(call, bytes, n, #call);             \
    }
#define BUILDS(bytes, call) BUILDS_N(bytes, sizeof bytes - 1, call)

/* Nothing is built, however much room there is. */
#define NOTHING(call)                             \
    do {                                          \
        room = sizeof to;                         \
        memset(to, UNTOUCHED, sizeof to);         \
        built(call, "", 0, #call);                \
    } while (0)

/* ---- calls */

static void calls_by_path(void)
{
    BUILDS("\1\7/a", guard_create_call(to, room, "/a", 7));
    BUILDS("\1\0/a", guard_create_call(to, room, "/a", 0));
    BUILDS("\2\5/a/bc", guard_mkdir_call(to, room, "/a/bc", GUARD_MODE_READ | GUARD_MODE_SEARCH));
    BUILDS("\3\1/a", guard_open_call(to, room, "/a", GUARD_RIGHT_READ));
    BUILDS("\3\2/a", guard_open_call(to, room, "/a", GUARD_RIGHT_WRITE));
    BUILDS("\3\3/a", guard_open_call(to, room, "/a", GUARD_RIGHT_BOTH));
    BUILDS("\11/a", guard_remove_call(to, room, "/a"));
    BUILDS("\12/a", guard_rmdir_call(to, room, "/a"));
    BUILDS("\13\2/a", guard_chmod_call(to, room, "/a", GUARD_MODE_WRITE));
    BUILDS("\14/", guard_readdir_call(to, room, "/"));
    BUILDS("\15/", guard_stat_call(to, room, "/"));
    BUILDS("\15", guard_stat_call(to, room, ""));
    NOTHING(guard_create_call(to, room, "/a", 8));
    NOTHING(guard_create_call(to, room, "/a", 256 + 7));
    NOTHING(guard_mkdir_call(to, room, "/a", 8));
    NOTHING(guard_chmod_call(to, room, "/a", 8));
    NOTHING(guard_open_call(to, room, "/a", 0));
    NOTHING(guard_open_call(to, room, "/a", 4));
}

static void calls_by_handle(void)
{
    BUILDS("\4\1\2\3\4", guard_close_call(to, room, 0x04030201));
    BUILDS("\5\2\0\0\0\1\2\3\4\5\6\7\10", guard_seek_call(to, room, 2, UINT64_C(0x0807060504030201)));
    BUILDS("\6\2\0\0\0\0\0\0\0", guard_read_call(to, room, 2, 0));
    BUILDS("\6\2\0\0\0\0\20\0\0", guard_read_call(to, room, 2, GUARD_TRANSFER_LENGTH));
    BUILDS("\7\2\0\0\0", guard_write_call(to, room, 2, NULL, 0));
    BUILDS("\7\2\0\0\0hello", guard_write_call(to, room, 2, "hello", 5));
    BUILDS("\10\377\377\377\377\0\0\1\0\0\0\0\0", guard_truncate_call(to, room, 0xffffffff, GUARD_FILE_LENGTH));
    NOTHING(guard_read_call(to, room, 2, 4097));
    NOTHING(guard_read_call(to, room, 2, SIZE_MAX));
}

static void calls_of_maps(void)
{
    BUILDS("\16\0\20\0\0", guard_map_call(to, room, GUARD_MAP_UNIT));
    BUILDS("\16\0\60\0\0", guard_map_call(to, room, 12288));
    BUILDS("\16\0\0\1\0", guard_map_call(to, room, GUARD_MAP_LENGTH));
    BUILDS("\17\1\2\3\4\5\6\7\10", guard_unmap_call(to, room, UINT64_C(0x0807060504030201)));
    BUILDS("\17\0\360\377\377\377\377\377\377", guard_unmap_call(to, room, UINT64_MAX - 4095));
    NOTHING(guard_map_call(to, room, 0));
    NOTHING(guard_map_call(to, room, 1));
    NOTHING(guard_map_call(to, room, 4095));
    NOTHING(guard_map_call(to, room, 4097));
    NOTHING(guard_map_call(to, room, 5120));
    NOTHING(guard_map_call(to, room, 65537));
    NOTHING(guard_map_call(to, room, 69632));
    NOTHING(guard_map_call(to, room, SIZE_MAX - 4095));
}

/* A rename's paths as they are: their form is the guard's business, but a length of 256 has no byte. */
static void calls_of_rename(void)
{
    static char longest[GUARD_PATH_LENGTH + 2], call[2 + 2 * GUARD_PATH_LENGTH];
    BUILDS("\20\2/a/bc", guard_rename_call(to, room, "/a", "/bc"));
    BUILDS("\20\4/a/b/", guard_rename_call(to, room, "/a/b", "/"));
    BUILDS("\20\2/a", guard_rename_call(to, room, "/a", ""));
    BUILDS("\20\0/a", guard_rename_call(to, room, "", "/a"));
    memset(longest, 'n', GUARD_PATH_LENGTH);
    memset(call, 'n', sizeof call);
    call[0] = GUARD_RENAME;
    call[1] = (char)GUARD_PATH_LENGTH;
    BUILDS_N(call, sizeof call, guard_rename_call(to, room, longest, longest));
    longest[GUARD_PATH_LENGTH] = 'n';
    NOTHING(guard_rename_call(to, room, longest, "/a"));
}

/* The lengths that the requirements give as numbers. */
static void lengths(void)
{
    check(GUARD_REPLY_LENGTH == 65544 && GUARD_MEMORY_LENGTH == 52864, "the longest reply, and the memory");
    check(GUARD_MAPS == 16 && GUARD_MAP_UNIT == 4096 && GUARD_MAP_LENGTH == 65536, "a map's lengths");
    check(GUARD_ANSWER_LENGTH == 9690 && GUARD_REQUEST_LENGTH == 1037 && GUARD_IMAGE_LENGTH == 44776, "lengths");
    check(GUARD_TRANSFER_LENGTH == 4096 && GUARD_FILE_LENGTH == 65536 && GUARD_FILE_PAGES == 64, "a file's lengths");
}

/* The longest call, and one byte more. */
static void longest_call(void)
{
    static uint8_t call[GUARD_CALL_LENGTH + 1];
    memset(call, 'w', sizeof call);
    memcpy(call, "\7\2\0\0\0", 5);
    check(GUARD_CALL_LENGTH == 5 + GUARD_TRANSFER_LENGTH && GUARD_CALL_LENGTH >= 2 + 2 * GUARD_PATH_LENGTH,
        "the longest call");
    for (room = GUARD_CALL_LENGTH - 2; room <= GUARD_CALL_LENGTH + 1; room++) {
        memset(to, UNTOUCHED, sizeof to);
        built(guard_write_call(to, room, 2, call + 5, GUARD_TRANSFER_LENGTH), call, GUARD_CALL_LENGTH,
            "a write of 4,096");
    }
    NOTHING(guard_write_call(to, room, 2, call + 5, GUARD_TRANSFER_LENGTH + 1));
    NOTHING(guard_write_call(to, room, 2, call + 5, SIZE_MAX));
}

/* ---- stats and listings, both ways */

static void stats(void)
{
    static const char bytes[] = "\3\0\0\0\1\6\304\11\0\0";
    guard_stat s = {0, 0, 0, 0};
    room = 0;
    check(!guard_get_stat((const uint8_t *)bytes, 9, &s) && !guard_get_stat((const uint8_t *)bytes, 11, &s),
        "a stat's length");
    check(guard_get_stat((const uint8_t *)bytes, 10, &s) && s.id == 3 && s.kind == GUARD_FILE && s.mode == 6 &&
        s.size == 2500, "a stat");
    BUILDS(bytes, guard_stat_reply(to, room, &s));
    check(guard_get_stat((const uint8_t *)"\1\2\3\4\2\0\5\6\7\10", 10, &s) && s.id == 0x04030201 &&
        s.size == 0x08070605, "a stat's numbers");
}

static void listings(void)
{
    static const char bytes[] = "\4\0\0\0\1\4note\3\2\1\0\2\1b";
    static const char name[] = "123456789012345678901234567890123";
    guard_dirent first = {4, GUARD_FILE, 4, "note"}, second = {0x010203, GUARD_DIRECTORY, 1, "b"}, e = {0, 0, 0, NULL};
    size_t at = 0, cut;
    BUILDS_N(bytes, 10, guard_dirent_reply(to, room, 0, &first));
    for (room = 10; room <= 18; room++)
        check(guard_dirent_reply(to, room, 10, &second) == (room < 17 ? 0U : 17U), "a second entry");
    check(memcmp(to, bytes, 17) == 0, "both entries");
    check(guard_dirent_reply(to, 5, 6, &second) == 0, "a listing longer than its buffer");
    check(guard_get_dirent((const uint8_t *)bytes, 17, &at, &e) && at == 10 && e.id == 4 && e.kind == 1,
        "the first entry");
    check(e.name_length == 4 && memcmp(e.name, "note", 4) == 0, "the first name");
    for (cut = 10; cut < 17; cut++)
        check(!guard_get_dirent((const uint8_t *)bytes, cut, &at, &e) && at == 10, "an entry that is cut short");
    check(guard_get_dirent((const uint8_t *)bytes, 17, &at, &e) && at == 17 && e.id == 0x010203 && e.kind == 2,
        "the second entry");
    check(e.name_length == 1 && e.name[0] == 'b', "the second name");
    check(!guard_get_dirent((const uint8_t *)bytes, 17, &at, &e), "the end of a listing");
    first.name = name;
    first.name_length = 32;
    room = sizeof to;
    check(guard_dirent_reply(to, room, 0, &first) == 38 && memcmp(to, "\4\0\0\0\1\40", 6) == 0 &&
        memcmp(to + 6, name, 32) == 0, "a name of 32");
    first.name_length = 33;
    NOTHING(guard_dirent_reply(to, room, 0, &first));
    first.name_length = 0;
    NOTHING(guard_dirent_reply(to, room, 0, &first));
}

/* ---- the other replies */

static void replies(void)
{
    static uint8_t page[GUARD_PAGE_LENGTH + 1];
    BUILDS("\2\0\0\0", guard_id_reply(to, room, 2));
    BUILDS("\377\376\375\374", guard_id_reply(to, room, 0xfcfdfeff));
    BUILDS("\0\0\0\0", guard_id_reply(to, room, 0));
    BUILDS("\377\3\0\0", guard_descriptor_reply(to, room, GUARD_DESCRIPTORS - 1));
    BUILDS("\0\0\0\0", guard_status_reply(to, room, 0));
    BUILDS("\0\4\0\0", guard_status_reply(to, room, GUARD_PAGE_LENGTH));
    BUILDS("\373\377\377\377", guard_status_reply(to, room, -5));
    BUILDS("\344\377\377\377", guard_full_reply(to, room));
    BUILDS("\344\377\377\377", guard_id_reply(to, room, GUARD_FULL_ID));
    check(guard_is_new_id(2) && guard_is_new_id(UINT32_MAX) && guard_is_new_id(GUARD_FULL_ID + 1), "ids of new nodes");
    check(!guard_is_new_id(0) && !guard_is_new_id(GUARD_ROOT) && !guard_is_new_id(GUARD_FULL_ID), "no new node's id");
    memcpy(page, "hello", 5);
    BUILDS_N(page, GUARD_PAGE_LENGTH, guard_page_reply(to, room, "hello", 5));
    memset(page, 'p', sizeof page);
    BUILDS_N(page, GUARD_PAGE_LENGTH, guard_page_reply(to, room, page, GUARD_PAGE_LENGTH));
    NOTHING(guard_page_reply(to, room, page, GUARD_PAGE_LENGTH + 1));
    memset(page, 0, sizeof page);
    BUILDS_N(page, GUARD_PAGE_LENGTH, guard_page_reply(to, room, NULL, 0));
}

static void map_replies(void)
{
    static uint8_t longest[GUARD_REPLY_LENGTH], bytes[GUARD_MAP_LENGTH + 1];
    BUILDS("\0\60\0\0\1\0\0\200hello", guard_map_reply(to, room, UINT64_C(0x8000000100003000), "hello", 5));
    BUILDS("\0\20\0\0\0\0\0\0", guard_map_reply(to, room, 4096, NULL, 0));
    NOTHING(guard_map_reply(to, room, 4096, bytes, GUARD_MAP_LENGTH + 1));
    NOTHING(guard_map_reply(to, room, 4096, bytes, SIZE_MAX));
    memset(longest, UNTOUCHED, sizeof longest);
    check(guard_map_reply(longest, sizeof longest - 1, 0, bytes, GUARD_MAP_LENGTH) == 0 && longest[0] == UNTOUCHED,
        "the longest map, and a byte too few");
    check(guard_map_reply(longest, sizeof longest, 0, bytes, GUARD_MAP_LENGTH) == GUARD_REPLY_LENGTH &&
        longest[GUARD_REPLY_LENGTH - 1] == 0, "the longest map");
}

/* ---- requests */

static int reads(guard_request *r, const char *bytes,
    size_t n) { return guard_get_request((const uint8_t *)bytes, n, r); }

static void path_requests(void)
{
    static const char with[] = {GUARD_CREATE, GUARD_MKDIR, GUARD_CHMOD, GUARD_OPEN},
        without[] = {GUARD_REMOVE, GUARD_RMDIR, GUARD_READDIR, GUARD_STAT};
    char bytes[] = "\0\0/a/b", bare[] = "\0/a/b";
    guard_request r;
    room = 0;
    for (size_t i = 0; i < sizeof with; i++)
        for (int mode = 0; mode < 256; mode++) {
            bytes[0] = with[i];
            bytes[1] = (char)mode;
            check(reads(&r, bytes, 6) == (with[i] == GUARD_OPEN ? mode >= 1 && mode <= 3 : mode <= 7),
                "which modes and rights");
            check(mode > 3 || mode == 0 ||
                (r.kind == with[i] && r.mode == mode && r.path == bytes + 2 && r.path_length == 4), "mode and path");
            check(!reads(&r, bytes, 1) && !reads(&r, bytes, 2), "a path that is missing");
        }
    for (size_t i = 0; i < sizeof without; i++) {
        bare[0] = without[i];
        check(reads(&r, bare, 5) && r.kind == without[i] && r.mode == 0 && r.path == bare + 1 && r.path_length == 4,
            "a path");
        check(!r.bytes && r.descriptor == 0 && r.page == 0 && r.size == 0, "what there is no field for");
        check(!reads(&r, bare, 1), "a path that is missing");
    }
    check(!reads(&r, "", 0) && !reads(&r, "\0/", 2) && !reads(&r, "\5\1\0\0\0", 5) && !reads(&r, "\21/", 2),
        "no request");
}

enum { LAST_DESCRIPTOR = GUARD_DESCRIPTORS - 1, STORED_AT = GUARD_REQUEST_LENGTH - GUARD_PAGE_LENGTH };

static void page_requests(void)
{
    static char store[GUARD_REQUEST_LENGTH + 1] = "\7\377\3\0\0\77\0\0\0\0\0\1\0page";
    guard_request r;
    room = 0;
    check(reads(&r, "\4\7\0\0\0", 5) && r.kind == GUARD_CLOSE && r.descriptor == 7 && r.page == 0 && r.size == 0 &&
        !r.bytes, "close");
    check(!reads(&r, "\4\7\0\0\0", 4) && !reads(&r, "\4\7\0\0\0\0", 6), "a close's length");
    check(reads(&r, "\6\0\0\0\0\77\0\0\0", 9) && r.kind == GUARD_FETCH && r.descriptor == 0 &&
        r.page == GUARD_FILE_PAGES - 1 && r.size == 0, "fetch");
    check(!reads(&r, "\6\0\0\0\0\100\0\0\0", 9), "page 64");
    check(!reads(&r, "\6\0\0\0\0\77\0\0\0", 8) && !reads(&r, "\6\0\0\0\0\77\0\0\0\0", 10), "a fetch's length");
    check(reads(&r, "\10\377\3\0\0\0\0\1\0", 9) && r.kind == GUARD_CUT && r.descriptor == LAST_DESCRIPTOR, "cut");
    check(r.size == GUARD_FILE_LENGTH && r.page == 0, "a cut's size");
    check(!reads(&r, "\10\377\3\0\0\1\0\1\0", 9), "size 65,537");
    check(!reads(&r, "\10\0\4\0\0\0\0\0\0", 9) && !reads(&r, "\10\377\377\377\377\0\0\0\0", 9),
        "descriptors 1,024 and -1");
    check(reads(&r, store, GUARD_REQUEST_LENGTH) && r.kind == GUARD_STORE && r.descriptor == LAST_DESCRIPTOR, "store");
    check(r.page == GUARD_FILE_PAGES - 1 && r.size == GUARD_FILE_LENGTH, "a store's page and size");
    check(r.bytes == (const uint8_t *)store + STORED_AT && !r.path && r.path_length == 0, "a store's page");
    check(!reads(&r, store, GUARD_REQUEST_LENGTH - 1) && !reads(&r, store, GUARD_REQUEST_LENGTH + 1),
        "a store's length");
    check(!reads(&r, store, STORED_AT) && !reads(&r, store, 1), "a store without its page");
}

static void map_requests(void)
{
    guard_request r;
    room = 0;
    check(reads(&r, "\16\0\20\0\0", 5) && r.kind == GUARD_MAP && r.length == 4096 && r.address == 0, "map");
    check(reads(&r, "\16\0\0\1\0", 5) && r.length == GUARD_MAP_LENGTH && r.size == 0 && !r.path, "the longest map");
    check(!reads(&r, "\16\0\0\0\0", 5) && !reads(&r, "\16\1\20\0\0", 5) && !reads(&r, "\16\0\20\1\0", 5),
        "lengths that no map has");
    check(!reads(&r, "\16\0\20\0", 4) && !reads(&r, "\16\0\20\0\0\0", 6) && !reads(&r, "\16", 1), "a map's length");
    check(reads(&r, "\17\0\60\0\0\1\0\0\200", 9) && r.kind == GUARD_UNMAP, "unmap");
    check(r.address == UINT64_C(0x8000000100003000) && r.length == 0 && r.descriptor == 0, "an unmap's address");
    check(!reads(&r, "\17\0\0\0\0\0\0\0\0", 9) && !reads(&r, "\17\1\60\0\0\1\0\0\200", 9), "no map's address");
    check(!reads(&r, "\17\0\60\0\0\1\0\0", 8) && !reads(&r, "\17\0\60\0\0\1\0\0\200\0", 10), "an unmap's length");
}

static void rename_requests(void)
{
    static const char bytes[] = "\20\2/a/bc/d";
    char longest[2 + 2 * GUARD_PATH_LENGTH + 1];
    guard_request r;
    room = 0;
    check(reads(&r, bytes, 9) && r.kind == GUARD_RENAME && r.mode == 0 && r.descriptor == 0 && !r.bytes, "rename");
    check(r.path == bytes + 2 && r.path_length == 2, "a rename's first path");
    check(r.new_path == bytes + 4 && r.new_path_length == 5, "a rename's second path");
    check(!reads(&r, bytes, 1) && !reads(&r, bytes, 2) && !reads(&r, bytes, 3) && !reads(&r, bytes, 4),
        "a rename that is cut short");
    check(!reads(&r, "\20\0/a", 4) && !reads(&r, "\20\1a/b", 5) && !reads(&r, "\20\2/ab", 5), "paths of another form");
    check(!reads(&r, "\20\3/a/bc", 7) && !reads(&r, "\20\2/a/bc/", 8) && !reads(&r, "\20\377/a/b", 6),
        "a length that is not the first path's");
    for (size_t i = 0; i < sizeof longest; i++) /* two paths of 255 bytes, and a byte more */
        longest[i] = (i < 2 + GUARD_PATH_LENGTH ? i - 2 : i - 2 - GUARD_PATH_LENGTH) % 32 == 0 ? '/' : 'n';
    longest[0] = GUARD_RENAME;
    longest[1] = (char)GUARD_PATH_LENGTH;
    check(reads(&r, longest, sizeof longest - 1) && r.new_path_length == GUARD_PATH_LENGTH, "the longest rename");
    check(!reads(&r, longest, sizeof longest), "a second path of 256");
    check(reads(&r, "\15/a", 3) && !r.new_path && r.new_path_length == 0, "no second path");
}

/* Paths, judged by this header and by the guard: stat refuses 22 or 36, or walks and finds nothing (2), or asks. */
static void path(const char *text, size_t n)
{
    static guard g;
    static uint8_t answer[GUARD_ANSWER_LENGTH], request[GUARD_REQUEST_LENGTH], call[512];
    call[0] = GUARD_STAT;
    memcpy(call + 1, text, n);
    guard_fresh(&g);
    guard_outcome o = guard_call(&g, call, 1 + n, answer, sizeof answer, request, sizeof request);
    int refused = o.kind == GUARD_REFUSED && (o.number == GUARD_MALFORMED || o.number == GUARD_TOO_LONG);
    check(guard_is_path(text, n) == !refused, "a path");
}

static void paths(void)
{
    static const char *const texts[] = {"", "/", "//", "a", "/a", "/a/", "/a/b", "/a//b", "/.", "/..", "/...", "/.a",
        "/a.", "/./a", "/a/..", "/..a", "/a/.b/c"};
    char longest[1 + GUARD_PATH_LENGTH + 1 + 1];
    for (size_t i = 0; i < sizeof texts / sizeof *texts; i++)
        path(texts[i], strlen(texts[i]));
    path("/a\0b", 4);
    path("/\0", 2);
    for (size_t i = 0; i < sizeof longest; i++)
        longest[i] = i % 32 == 0 ? '/' : 'n';
    for (size_t n = 30; n <= 35; n++)
        path(longest, n);
    for (size_t n = 250; n <= 257; n++)
        path(longest, n);
    memset(longest + 1, 'n', sizeof longest - 1);
    for (size_t n = 30; n <= 35; n++)
        path(longest, n);
}

/* ---- words */

static const struct { unsigned number; const char *word; } numbers[] = {
    {5, "stopped"}, {114, "busy"}, {61, "unasked"}, {34, "short"}, {22, "malformed"}, {36, "long"}, {20, "no folder"},
        {13, "barred"}, {2, "absent"},
    {17, "present"}, {21, "folder"}, {16, "in use"}, {39, "not empty"}, {24, "handles"}, {9, "handle"}, {27, "too big"},
        {28, "full"}, {12, "maps"}, {74, "seal"},
    {84, "image"}, {30, "read-only"},
};
static const char *const reasons[] = {"", "length", "status", "id", "descriptor", "page", "stat", "listing",
    "map"};
static const char *const calls[] = {"no call", "create", "mkdir", "open", "close", "seek", "read", "write", "truncate",
    "remove", "rmdir", "chmod",
                                    "readdir", "stat", "map", "unmap", "rename", "no call"};
static const char *const requests[] = {"no request", "create", "mkdir", "open", "close", "no request", "fetch", "store",
    "cut", "remove", "rmdir", "chmod",
                                       "readdir", "stat", "map", "unmap", "rename", "no request"};
static const char *const outcomes[] = {"done", "ask", "refused", "stopped", "no outcome"};

static int begins(const char *text, const char *word)
{
    size_t n = strlen(word);
    return strncmp(text, word, n) == 0 && text[n] == ':' && text[n + 1] == ' ';
}

static void words(void)
{
    size_t known = 0;
    room = 0;
    for (size_t i = 0; i < 21; i++)
        check(begins(guard_number_text(numbers[i].number), numbers[i].word), numbers[i].word);
    for (unsigned n = 0; n < 1000; n++)
        known += strcmp(guard_number_text(n), "no number of the guard") != 0;
    check(known == 21 && sizeof numbers / sizeof *numbers == 21, "21 numbers");
    for (unsigned n = 1; n <= 8; n++)
        check(begins(guard_stop_text(n), reasons[n]), reasons[n]);
    check(!strcmp(guard_stop_text(0), "no reason of the guard") && !strcmp(guard_stop_text(9), guard_stop_text(0)),
        "eight reasons");
    for (int n = 0; n <= GUARD_RENAME + 1; n++)
        check(!strcmp(guard_call_name(n), calls[n]) && !strcmp(guard_request_name(n), requests[n]), calls[n]);
    for (int n = 0; n <= 4; n++)
        check(!strcmp(guard_outcome_name(n), outcomes[n]), outcomes[n]);
}

int main(void)
{
    calls_by_path();
    calls_by_handle();
    calls_of_maps();
    calls_of_rename();
    lengths();
    longest_call();
    stats();
    listings();
    replies();
    map_replies();
    path_requests();
    page_requests();
    map_requests();
    rename_requests();
    paths();
    words();
    printf("client: %d checks of bytes and words\n", checks);
    return wrong;
}
