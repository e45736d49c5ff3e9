/* Records of bytes (records.h) through the archive, each outcome held against what the specification says of every
 * outcome, whatever was handed in.
 *
 * Each call also goes to the other kind of guard, read-only beside a guard or a guard beside a read-only one, on a copy
 * of the memory: both give the same, or the read-only one refuses 30 and leaves everything as it was.
 *
 * The archive has no coverage of its own: what came back to what is counted for libFuzzer in `seen`. All that is lent
 * lies against unreadable pages (tests/boundary/places.h), at the low or the high end by the input's first byte, or
 * near the low one; that byte also says whether the guard is a read-only one. */
#include "guard_client.h"
#include "host.h"
#include "places.h"
#include "records.h"

#include <stdio.h>
#include <stdlib.h>
#include <string.h>

int LLVMFuzzerInitialize(int *n, char ***words);
int LLVMFuzzerTestOneInput(const uint8_t *data, size_t size);
void plain_sha256(const uint8_t *message, size_t n, uint8_t out[32]);

enum { INPUT = GUARD_REPLY_LENGTH + 64, EVENTS = 300 };

__attribute__((section("__libfuzzer_extra_counters"))) static uint8_t seen[8192];

static struct place memory, elsewhere, twin, answer, request, image, digest, input, seal;

/* What is known of the guard from its outcomes alone. */
static struct {
    int stopped, pending, loaded, saved;
    size_t open_files, saved_length, maps;
    struct { uint64_t address, last; } map[GUARD_MAPS]; /* those that live, each up to its last byte */
    struct { uint64_t handle, cursor; } file[GUARD_OPEN_FILES]; /* those that are open */
    size_t stores; /* of the pending call, that were taken */
    uint8_t call[GUARD_TRANSFER_LENGTH + 5]; /* the pending call */
    size_t call_length;
    uint8_t asked[GUARD_REQUEST_LENGTH]; /* the pending request */
    size_t asked_length;
    uint8_t image[GUARD_IMAGE_LENGTH], digest[GUARD_DIGEST_LENGTH]; /* the last save */
    int is_reader; /* a read-only guard: it saves what was loaded last, or what a fresh guard saves */
    uint8_t shown[GUARD_IMAGE_LENGTH];
    size_t shown_length;
} known;

#define MUST(condition) ((condition) ? (void)0 : wrong(#condition, __LINE__))

static void wrong(const char *what, int line)
{
    fprintf(stderr, "fuzz: line %d: not so: %s\n", line, what);
    abort();
}

static int same(const uint8_t *a, const uint8_t *b, size_t n)
{
    return n == 0 || memcmp(a, b, n) == 0;
}

/* ---- handing in */

static guard_outcome enter_call(int is_reader, const struct place *m)
{
    return (is_reader ? guard_entry_reader_call : guard_entry_call)(m->at, m->length, input.at, input.length,
        answer.at, answer.length, request.at, request.length);
}

static guard_outcome enter(enum what what)
{
    switch (what) {
    case CALL: return enter_call(known.is_reader, &memory);
    case REPLY: return guard_entry_reply(memory.at, memory.length, input.at, input.length, answer.at, answer.length,
        request.at, request.length);
    case SAVE: return guard_entry_save(memory.at, memory.length, image.at, image.length, digest.at);
    default: return guard_entry_load(memory.at, memory.length, input.at, input.length, seal.at, seal.length);
    }
}

static size_t bits(uint64_t n)
{
    size_t count = 0;
    for (; n; n /= 2)
        count++;
    return count;
}

/* Coverage: what was handed in, to what pending request, what came back. */
static void count(enum what what, guard_outcome o)
{
    size_t kind = what == CALL ? (input.length ? input.at[0] % 32 : 31) : known.pending ? known.asked[0] : 0;
    size_t number = o.kind == GUARD_REFUSED || o.kind == GUARD_STOPPED ? o.number
        : bits(o.number) + 16 * bits(o.length);
    seen[(((what * 32 + kind) * 4 + (size_t)o.kind) * 251 + number * 7) % sizeof seen]++;
    seen[(known.open_files * 61 + (size_t)known.is_reader * 4099 + bits(known.call_length) * 13 + kind) %
        sizeof seen]++;
}

static void untouched(struct place *p, size_t first)
{
    MUST(first <= p->length);
    MUST(place_untouched(p, first));
}

/* ---- the other kind of guard */

/* What it gave, and the memory that both had before. */
static struct { guard_outcome o; uint8_t bytes[GUARD_ANSWER_LENGTH], before[GUARD_MEMORY_LENGTH]; } other;

static void enter_other(void)
{
    memcpy(other.before, memory.at, GUARD_MEMORY_LENGTH);
    place_hold(&twin, memory.at, GUARD_MEMORY_LENGTH);
    other.o = enter_call(!known.is_reader, &twin);
    struct place *given = other.o.kind == GUARD_ASK ? &request : &answer;
    untouched(given, other.o.length);
    untouched(given == &request ? &answer : &request, 0);
    untouched(&twin, GUARD_MEMORY_LENGTH);
    if (other.o.length > 0)
        memcpy(other.bytes, given->at, other.o.length);
    place_restore(given, other.o.length);
}

/* Whether a read-only guard takes a call of this kind. */
static int is_taken(void)
{
    switch (input.length ? input.at[0] : 0) {
    case GUARD_CLOSE: case GUARD_SEEK: case GUARD_READ: case GUARD_READDIR: case GUARD_STAT: return 1;
    case GUARD_OPEN: return input.length > 1 && input.at[1] == 1;
    default: return 0;
    }
}

static int is_refused(guard_outcome o, uint64_t number) { return o.kind == GUARD_REFUSED && o.number == number; }

/* An unmap of right form: a guard refuses it 22 where no such map lives. */
static int is_unmap(void) { return input.length == 9 && input.at[0] == GUARD_UNMAP; }

/* 22, 36, or 0 where a path's form is right. */
static unsigned path_number(const uint8_t *path, size_t n)
{
    unsigned number = n > GUARD_PATH_LENGTH ? GUARD_TOO_LONG : 0;
    if (n == 0 || path[0] != '/')
        return GUARD_MALFORMED;
    for (size_t at = 1, end; n > 1 && at <= n; at = end + 1) {
        for (end = at; end < n && path[end] != '/';)
            if (path[end++] == 0)
                return GUARD_MALFORMED;
        if (end == at || (path[at] == '.' && (end - at == 1 || (end - at == 2 && path[at + 1] == '.'))))
            return GUARD_MALFORMED;
        if (end - at > GUARD_NAME_LENGTH)
            number = GUARD_TOO_LONG;
    }
    return number;
}

/* The number of a rename's form: a fault of either path before a length of either. */
static unsigned rename_number(void)
{
    if (input.length < 2 || input.at[1] > input.length - 2)
        return GUARD_MALFORMED;
    unsigned first = path_number(input.at + 2, input.at[1]);
    unsigned second = path_number(input.at + 2 + input.at[1], input.length - 2 - input.at[1]);
    return first == GUARD_MALFORMED || second == GUARD_MALFORMED ? GUARD_MALFORMED : first ? first : second;
}

/* A rename whose paths are right by themselves: a guard may still refuse it 22 or 36, by its tree. */
static int is_rename(void) { return input.length > 0 && input.at[0] == GUARD_RENAME && !rename_number(); }

/* Whether 22 or 36 is not the form's. */
static int is_by_tree(uint64_t number)
{
    return number == GUARD_MALFORMED ? is_unmap() || is_rename() : number == GUARD_TOO_LONG && is_rename();
}

/* A call that a read-only guard does not take is refused 30, or by a number that comes before it. */
static int is_before_read_only(guard_outcome o)
{
    static const uint8_t numbers[] = {5, 114, 34, 22, 36};
    return o.kind == GUARD_REFUSED && o.number < 256 && memchr(numbers, (int)o.number, sizeof numbers) != NULL &&
        !is_by_tree(o.number);
}

static void check_other(guard_outcome o)
{
    guard_outcome reader = known.is_reader ? o : other.o, guards = known.is_reader ? other.o : o;
    const uint8_t *bytes = o.kind == GUARD_ASK ? request.at : answer.at;
    if (!is_taken() && !is_before_read_only(guards)) {
        MUST(is_refused(reader, GUARD_READ_ONLY));
        MUST(same((known.is_reader ? memory : twin).at, other.before, GUARD_MEMORY_LENGTH));
        return;
    }
    MUST(o.kind == other.o.kind && o.number == other.o.number && o.length == other.o.length);
    MUST(same(bytes, other.bytes, o.length) && same(memory.at, twin.at, GUARD_MEMORY_LENGTH));
}

/* ---- an event */

/* What the last event gave out: it stays where it is until `put_back`. */
static struct { size_t answer, request, image, digest; } given;

/* One event: no byte is touched that the outcome does not promise. */
static guard_outcome hand_in(enum what what)
{
    if (what == CALL)
        enter_other();
    guard_outcome o = enter(what);
    MUST(o.kind >= GUARD_DONE && o.kind <= GUARD_STOPPED);
    MUST(o.kind <= GUARD_ASK || o.length == 0);
    given.answer = o.kind == GUARD_DONE && what <= REPLY ? o.length : 0;
    given.request = o.kind == GUARD_ASK ? o.length : 0;
    given.image = o.kind == GUARD_DONE && what == SAVE ? o.length : 0;
    given.digest = o.kind == GUARD_DONE && what == SAVE ? GUARD_DIGEST_LENGTH : 0;
    untouched(&answer, given.answer);
    untouched(&request, given.request);
    if (what == SAVE) {
        untouched(&image, given.image);
        untouched(&digest, given.digest);
    }
    untouched(&memory, memory.length);
    if (what == CALL)
        check_other(o);
    count(what, o);
    return o;
}

static void put_back(void)
{
    place_restore(&answer, given.answer);
    place_restore(&request, given.request);
    place_restore(&image, given.image);
    place_restore(&digest, given.digest);
    memset(&given, 0, sizeof given);
}

/* At the end: a byte that was touched where nothing was lent is still so. */
static void nothing_touched(void)
{
    put_back();
    untouched(&image, 0);
    untouched(&digest, 0);
    untouched(&elsewhere, 0);
    place_clear(&twin);
}

/* ---- what the specification says of every outcome */

/* The number that comes before what is handed in is looked at, or 0. */
static unsigned first_number(enum what what)
{
    int is_short = answer.length < GUARD_ANSWER_LENGTH || request.length < GUARD_REQUEST_LENGTH;
    if (known.stopped)
        return GUARD_STOPPED_FOR_GOOD;
    if (known.pending && what != REPLY)
        return GUARD_PENDING;
    if (!known.pending && what == REPLY)
        return GUARD_NOT_PENDING;
    if (known.open_files && what >= SAVE)
        return GUARD_IN_USE;
    return what <= REPLY && is_short ? GUARD_SHORT_BUFFER : 0;
}

static int is_call_number(uint64_t n)
{
    static const uint8_t numbers[] = {22, 36, 20, 13, 2, 17, 21, 16, 39, 24, 9, 27, 28, 12};
    return n < 256 && memchr(numbers, (int)n, sizeof numbers) != NULL;
}

static uint64_t field(const uint8_t *at, size_t bytes)
{
    uint64_t n = 0;
    while (bytes-- > 0)
        n = n * 256 + at[bytes];
    return n;
}

/* A request has its kind's length, or is the call itself; it stands from now on. */
static void check_request(guard_outcome o)
{
    static const size_t lengths[GUARD_RENAME + 1] = {
        [GUARD_CLOSE] = 5, [GUARD_FETCH] = 9, [GUARD_STORE] = GUARD_REQUEST_LENGTH, [GUARD_CUT] = 9,
    };
    const uint8_t *q = request.at;
    MUST(o.number == 0 && o.length > 0 && q[0] >= GUARD_CREATE && q[0] <= GUARD_RENAME && q[0] != GUARD_SEEK);
    if (lengths[q[0]])
        MUST(o.length == lengths[q[0]] && field(q + 1, 4) < GUARD_DESCRIPTORS);
    else
        MUST(o.length == known.call_length && same(q, known.call, o.length));
    memcpy(known.asked, q, o.length);
    known.asked_length = o.length;
    known.pending = 1;
}

/* ---- open files and their cursors */

/* Where the file of a call by handle stands among those that are open. */
static size_t file_of(const uint8_t *call)
{
    size_t i = 0;
    while (i < known.open_files && known.file[i].handle != field(call + 1, 4))
        i++;
    MUST(i < known.open_files);
    return i;
}

static uint64_t *cursor(void) { return &known.file[file_of(known.call)].cursor; }

static void open_done(guard_outcome o)
{
    MUST(o.number > 1 && o.length == 0 && known.open_files < GUARD_OPEN_FILES);
    known.file[known.open_files].handle = o.number;
    known.file[known.open_files++].cursor = 0;
}

static void close_done(guard_outcome o)
{
    size_t i = file_of(known.call);
    MUST(o.number == 0 && o.length == 0);
    known.file[i] = known.file[--known.open_files];
}

static void truncate_done(guard_outcome o)
{
    uint64_t size = field(known.call + 5, 8);
    MUST(o.number == 0 && o.length == 0 && size <= GUARD_FILE_LENGTH);
    if (*cursor() > size)
        *cursor() = size;
}

/* ---- a full disk, by the words of the rules */

enum { FULL_ID = 0xffffffe4 };

static int says_full(void) { return input.length == 4 && field(input.at, 4) == (uint32_t)FULL_ID; }

/* Whether a full disk ends the call whose request is pending. */
static int ends_full(void)
{
    switch (known.asked[0]) {
    case GUARD_CREATE: case GUARD_MKDIR: return 1;
    case GUARD_STORE: return known.call[0] == GUARD_WRITE;
    case GUARD_CUT: return host_grows(known.asked);
    default: return 0;
    }
}

/* The reason to stop where it ends no call. */
static unsigned full_reason(void)
{
    switch (known.asked[0]) {
    case GUARD_OPEN: return GUARD_STOP_DESCRIPTOR;
    case GUARD_FETCH: case GUARD_STAT: case GUARD_MAP: return GUARD_STOP_LENGTH;
    case GUARD_READDIR: return GUARD_STOP_LISTING;
    default: return GUARD_STOP_STATUS;
    }
}

/* A write is done as far as its stores were taken, everything else is refused; the host has done nothing, and no
 * request is pending. */
static void check_full(guard_outcome o)
{
    if (!ends_full()) {
        MUST(o.kind == GUARD_STOPPED && o.number == full_reason());
        known.stopped = 1;
    } else if (known.stores == 0) {
        MUST(o.kind == GUARD_REFUSED && o.number == GUARD_FULL && o.length == 0);
    } else {
        uint64_t end = field(known.asked + 5, 4) * GUARD_PAGE_LENGTH;
        MUST(o.kind == GUARD_DONE && o.number == end - *cursor() && o.length == 0);
        MUST(o.number > 0 && o.number < known.call_length - 5);
        *cursor() = end;
    }
}

/* ---- maps, by the words of the rules */

/* The map that begins there, or as many as there are. */
static size_t find_map(uint64_t address)
{
    size_t i = 0;
    while (i < known.maps && known.map[i].address != address)
        i++;
    return i;
}

/* The number of a map's or an unmap's refusal, once it is looked at; 0 where it is sent on. */
static unsigned map_number(void)
{
    uint64_t n = field(input.at + 1, input.length > 9 ? 8 : input.length - 1);
    if (input.at[0] == GUARD_UNMAP)
        return input.length != 9 || find_map(n) == known.maps ? GUARD_MALFORMED : 0;
    if (input.length != 5 || n < GUARD_MAP_UNIT || n > GUARD_MAP_LENGTH || n % GUARD_MAP_UNIT)
        return GUARD_MALFORMED;
    return known.maps == GUARD_MAPS ? GUARD_TOO_MANY_MAPS : 0;
}

/* The reason that a map's reply must stop for, 0 where it is right. */
static unsigned map_reason(void)
{
    uint64_t length = field(known.asked + 1, 4), address, last;
    if (input.length != GUARD_ADDRESS_LENGTH + length)
        return GUARD_STOP_LENGTH;
    address = field(input.at, GUARD_ADDRESS_LENGTH);
    last = address + (length - 1);
    if (address == 0 || address % GUARD_MAP_UNIT || last < address)
        return GUARD_STOP_MAP;
    for (size_t i = 0; i < known.maps; i++)
        if (address <= known.map[i].last && known.map[i].address <= last)
            return GUARD_STOP_MAP;
    for (size_t i = GUARD_ADDRESS_LENGTH; i < input.length; i++)
        if (input.at[i])
            return GUARD_STOP_MAP;
    return 0;
}

/* One more, or one less: each map is the host's word, so nothing else can be known of it. */
static void map_done(guard_outcome o)
{
    MUST(o.number == field(input.at, GUARD_ADDRESS_LENGTH) && o.length == 0 && known.maps < GUARD_MAPS);
    known.map[known.maps].address = o.number;
    known.map[known.maps++].last = o.number + (field(known.call + 1, 4) - 1);
}

static void unmap_done(guard_outcome o)
{
    size_t i = find_map(field(known.call + 1, GUARD_ADDRESS_LENGTH));
    MUST(o.number == 0 && o.length == 0 && i < known.maps);
    known.map[i] = known.map[--known.maps];
}

/* ---- renames, by the words of the rules */

static void check_rename(guard_outcome o)
{
    size_t length = input.at[1], new_length = input.length - 2 - length;
    const uint8_t *path = input.at + 2, *new_path = path + length;
    unsigned number = host_rename_number(path, length, new_path, new_length);
    if (number)
        MUST(is_refused(o, number));
    else if (host_is_own_path(path, length, new_path, new_length))
        MUST(o.kind == GUARD_DONE && o.number == 0 && o.length == 0);
    else
        MUST(o.kind == GUARD_ASK);
}

/* A call that is done at the reply in the input. */
static void check_done(guard_outcome o)
{
    switch (known.call[0]) {
    case GUARD_CREATE: case GUARD_MKDIR: MUST(o.number == field(input.at, 4) && o.number > 1 && o.length == 0); break;
    case GUARD_OPEN: open_done(o); break;
    case GUARD_CLOSE: close_done(o); break;
    case GUARD_READ: MUST(o.number == o.length && o.length > 0 && o.length <= field(known.call + 5, 4));
        *cursor() += o.number; break;
    case GUARD_WRITE: MUST(o.number == known.call_length - 5 && o.length == 0); *cursor() += o.number; break;
    case GUARD_TRUNCATE: truncate_done(o); break;
    case GUARD_READDIR: MUST(o.number < GUARD_NODES && o.length == input.length &&
        same(answer.at, input.at, o.length)); break;
    case GUARD_STAT: MUST(o.number == field(input.at + 6, 4) && o.length == 10 && same(answer.at, input.at, 10)); break;
    case GUARD_MAP: map_done(o); break;
    case GUARD_UNMAP: unmap_done(o); break;
    default: MUST(o.number == 0 && o.length == 0);
    }
}

static void on_call(void)
{
    unsigned first = first_number(CALL);
    guard_outcome o = hand_in(CALL);
    MUST(!first || (o.kind == GUARD_REFUSED && o.number == first));
    if (first)
        return;
    if (known.is_reader && is_refused(o, GUARD_READ_ONLY))
        return;
    MUST(o.kind != GUARD_STOPPED && (o.kind != GUARD_REFUSED || is_call_number(o.number)));
    MUST(!known.is_reader || o.kind == GUARD_REFUSED || is_taken());
    if (!known.is_reader && input.length > 0 && (input.at[0] == GUARD_MAP || input.at[0] == GUARD_UNMAP))
        MUST(map_number() ? o.kind == GUARD_REFUSED && o.number == map_number() : o.kind == GUARD_ASK);
    if (input.length > 0 && input.at[0] == GUARD_RENAME && rename_number())
        MUST(is_refused(o, rename_number()));
    if (!known.is_reader && is_rename())
        check_rename(o);
    if (o.kind == GUARD_REFUSED)
        return;
    MUST(input.length > 1 && input.length <= sizeof known.call);
    memcpy(known.call, input.at, input.length);
    known.call_length = input.length;
    known.stores = 0;
    if (o.kind == GUARD_ASK)
        check_request(o);
    else if (known.call[0] != GUARD_RENAME) /* seek, or nothing to read, write or cut */
        MUST(known.call[0] >= GUARD_SEEK && known.call[0] <= GUARD_TRUNCATE && o.length == 0 &&
            o.number <= GUARD_FILE_LENGTH);
    if (o.kind == GUARD_DONE && known.call[0] == GUARD_SEEK)
        *cursor() = o.number;
    if (o.kind == GUARD_ASK && (known.call[0] == GUARD_READ || known.call[0] == GUARD_WRITE))
        MUST(field(known.asked + 5, 4) == *cursor() / GUARD_PAGE_LENGTH);
}

/* A reply that was taken is the host's own but for what a host may choose. */
static void check_taken(const uint8_t *own, size_t n)
{
    switch (known.asked[0]) {
    case GUARD_CREATE: case GUARD_MKDIR: case GUARD_OPEN: case GUARD_READDIR: case GUARD_MAP:
        MUST(input.length == n);
        break;
    default:
        if (known.asked[0] == GUARD_FETCH && !host_is_sure())
            MUST(input.length == n);
        else
            MUST(input.length == n && same(input.at, own, n));
    }
}

static void on_reply(int is_true)
{
    static uint8_t own[GUARD_REPLY_LENGTH];
    unsigned first = first_number(REPLY);
    guard_outcome o = hand_in(REPLY);
    MUST(!first || (o.kind == GUARD_REFUSED && o.number == first));
    if (first)
        return;
    known.pending = 0;
    if (says_full()) {
        check_full(o);
        return;
    }
    MUST(o.kind != GUARD_REFUSED);
    if (known.asked[0] == GUARD_MAP)
        MUST(map_reason() ? o.kind == GUARD_STOPPED && o.number == map_reason() : o.kind == GUARD_DONE);
    if (o.kind == GUARD_STOPPED) {
        MUST(o.number >= 1 && o.number <= 8);
        MUST(!is_true || (o.number == GUARD_STOP_PAGE && !host_is_sure()));
        known.stopped = 1;
        return;
    }
    check_taken(own, host_reply(known.asked, known.asked_length, own));
    host_obey(known.asked, known.asked_length, input.at);
    known.stores += known.asked[0] == GUARD_STORE;
    if (o.kind == GUARD_ASK)
        check_request(o);
    else
        check_done(o);
}

/* The last save, and its digest by other code. */
static void on_save(void)
{
    unsigned first = first_number(SAVE);
    uint8_t right[GUARD_DIGEST_LENGTH];
    guard_outcome o = hand_in(SAVE);
    MUST(!first || (o.kind == GUARD_REFUSED && o.number == first));
    if (o.kind == GUARD_REFUSED) {
        MUST(first || (o.number == GUARD_SHORT_BUFFER && image.length < GUARD_IMAGE_LENGTH));
        return;
    }
    MUST(o.kind == GUARD_DONE && o.number == o.length && o.length >= 23);
    plain_sha256(image.at, o.length, right);
    MUST(same(right, digest.at, sizeof right));
    MUST(!known.is_reader || (o.length == known.shown_length && same(image.at, known.shown, o.length)));
    memcpy(known.image, image.at, o.length);
    memcpy(known.digest, right, sizeof right);
    known.saved_length = o.length;
    known.saved = 1;
    host_saved();
}

static void lend(struct record r, size_t image_length)
{
    put_back();
    place_lend(&answer, GUARD_ANSWER_LENGTH - (size_t)r.short_answer);
    place_lend(&request, GUARD_REQUEST_LENGTH - (size_t)r.short_request);
    place_lend(&image, image_length);
    place_lend(&digest, GUARD_DIGEST_LENGTH);
}

/* An image whose digest is right is loaded just where it is one that a guard saves: it is then what is saved. */
static void on_load(void)
{
    unsigned first = first_number(LOAD);
    uint8_t right[GUARD_DIGEST_LENGTH];
    plain_sha256(input.at, input.length, right);
    int is_right = seal.length == sizeof right && same(seal.at, right, sizeof right);
    guard_outcome o = hand_in(LOAD);
    MUST(!first || (o.kind == GUARD_REFUSED && o.number == first));
    if (o.kind == GUARD_REFUSED) {
        MUST(first || o.number == (is_right ? GUARD_UNSOUND_IMAGE : GUARD_WRONG_DIGEST));
        return;
    }
    MUST(o.kind == GUARD_DONE && o.number == 0 && o.length == 0 && is_right);
    known.loaded = 1;
    memcpy(known.shown, input.at, input.length);
    known.shown_length = input.length;
    if (known.saved && known.saved_length == input.length && same(known.image, input.at, input.length))
        host_loaded();
    else
        host_loaded_image(input.at);
    lend((struct record){0}, GUARD_IMAGE_LENGTH);
    on_save();
    MUST(known.saved && known.saved_length == input.length && same(known.image, input.at, input.length));
}

/* ---- an input */

static void move_guard(void)
{
    struct place old = memory;
    untouched(&elsewhere, 0);
    memory = elsewhere;
    elsewhere = old;
    place_hold(&memory, old.at, GUARD_MEMORY_LENGTH);
    place_clear(&elsewhere);
}

static void load(const uint8_t *bytes, size_t n, const uint8_t *of, size_t length)
{
    place_input(&input, bytes, n);
    place_input(&seal, of, length);
    on_load();
}

static void load_bytes(struct record r)
{
    uint8_t right[GUARD_DIGEST_LENGTH];
    plain_sha256(r.bytes, r.length, right);
    if (r.what == LOAD_BADLY)
        right[r.length % GUARD_DIGEST_LENGTH] ^= 1;
    load(r.bytes, r.length, right, sizeof right - (size_t)r.short_answer);
}

static void true_reply(void)
{
    static uint8_t reply[GUARD_REPLY_LENGTH];
    size_t n = known.pending ? host_reply(known.asked, known.asked_length, reply) : 0;
    place_input(&input, reply, n);
    on_reply(1);
}

/* The host's disk is full. */
static void full_reply(void)
{
    static const uint8_t reply[4] = {0xe4, 0xff, 0xff, 0xff};
    place_input(&input, reply, sizeof reply);
    on_reply(0);
}

/* The host's reply with the record's bytes over its front or its end. */
static void changed_reply(struct record r)
{
    static uint8_t reply[GUARD_REPLY_LENGTH];
    size_t n = known.pending ? host_reply(known.asked, known.asked_length, reply) : 0;
    size_t over = r.length < n ? r.length : n;
    if (over > 0)
        memcpy(r.what == REPLY_OVER ? reply : reply + n - over, r.bytes, over);
    place_input(&input, reply, n);
    on_reply(0);
}

static void do_record(struct record r)
{
    lend(r, r.what == SAVE && r.length >= 2 ? (size_t)field(r.bytes, 2) : GUARD_IMAGE_LENGTH);
    switch (r.what) {
    case CALL: place_input(&input, r.bytes, r.length); on_call(); break;
    case REPLY: place_input(&input, r.bytes, r.length); on_reply(0); break;
    case TRUE_REPLY: true_reply(); break;
    case FULL_REPLY: full_reply(); break;
    case SAVE: on_save(); break;
    case LOAD_SAVED: load(known.image, known.saved_length, known.digest, known.saved ? GUARD_DIGEST_LENGTH : 0); break;
    case MOVE: move_guard(); break;
    case REPLY_OVER: case REPLY_UNDER: changed_reply(r); break;
    default: load_bytes(r);
    }
}

/* What can be saved is loaded by a fresh guard. */
static void come_back(void)
{
    known.saved = 0;
    do_record((struct record){.what = SAVE});
    if (!known.saved)
        return;
    MUST(guard_entry_fresh(memory.at, memory.length).kind == GUARD_DONE);
    known.loaded = 0;
    known.maps = 0;
    do_record((struct record){.what = LOAD_SAVED});
    MUST(known.loaded);
}

int LLVMFuzzerInitialize(int *n, char ***words)
{
    (void)n;
    (void)words;
    places_begin(0);
    memory = place_for("memory", GUARD_MEMORY_LENGTH);
    elsewhere = place_for("memory", GUARD_MEMORY_LENGTH);
    twin = place_for("memory", GUARD_MEMORY_LENGTH);
    answer = place_for("answer", GUARD_ANSWER_LENGTH);
    request = place_for("request", GUARD_REQUEST_LENGTH);
    image = place_for("image", INPUT);
    digest = place_for("digest", GUARD_DIGEST_LENGTH);
    input = place_for("input", INPUT);
    seal = place_for("seal", GUARD_DIGEST_LENGTH);
    return 0;
}

/* What a fresh guard saves: one node, the root. */
static void show_root(void)
{
    static const uint8_t root[] = {1, 0, 0, 0, 1, 0, 0, 0, 0, 0, 0, 0, 2, 7, 0, 0, 0, 0, 0, 0, 0, 0, 0};
    memcpy(known.shown, root, sizeof root);
    known.shown_length = sizeof root;
}

int LLVMFuzzerTestOneInput(const uint8_t *data, size_t size)
{
    struct record r;
    size_t took;
    if (!size)
        return 0;
    put_back();
    places_turn(data[0] & 1, data[0] / 2 % 8);
    memset(&known, 0, sizeof known);
    known.is_reader = data[0] / 16 % 2;
    show_root();
    host_begin();
    place_clear(&twin);
    place_clear(&memory);
    place_lend(&memory, GUARD_MEMORY_LENGTH);
    MUST(guard_entry_fresh(memory.at, memory.length).kind == GUARD_DONE);
    data++, size--;
    for (int i = 0; i < EVENTS && (took = record_read(data, size, &r)); i++) {
        do_record(r);
        data += took;
        size -= took;
    }
    come_back();
    nothing_touched();
    return 0;
}
