/* Lists of events through the archive: every answer compared with the one that stands in the list, and every byte that
 * no answer promises.
 *
 *     driver low|high < LISTS
 *
 * LISTS are lines of tests/model/transcripts.py, and more: `g N` says which of two guards gets what follows, `k` keeps
 * it, `a` goes back to what was kept, and `HH*N` within bytes is the byte HH in all N times.
 *
 * - All that is lent lies between two pages that nobody may touch (places.h), at their low or at their high end; at
 *   every other eight events a few bytes behind the low one, since nothing needs an alignment. Bytes that are handed in
 *   cannot be written.
 * - Before each event the guard moves to another address, and what it leaves is overwritten.
 * - At the end of each list every entry is tried on the guard's memory cut short.
 * - A list of a read-only guard has a guard beside it, which gets all that was not refused 30: it must come to the same
 *   outcome and bytes, and leave the same memory.
 *
 * Ends with status 1 at the first difference. */
#define _GNU_SOURCE
#include "guard.h"
#include "places.h"

#include <signal.h>
#include <stdarg.h>
#include <stdio.h>
#include <stdlib.h>
#include <string.h>
#include <unistd.h>

enum { INPUT = (1 << 20) + 4096, NAME = 200 };

/* A list as it runs on its guard. */
struct run {
    struct place memory[2]; /* where it is, and where it was */
    uint8_t kept[GUARD_MEMORY_LENGTH];
    char name[NAME];
    size_t answer, request; /* the lengths of the buffers for calls and replies */
    int is_read_only;
    struct place beside; /* the guard beside a read-only one */
};

static struct run runs[2], *run = runs;
static struct place answer, request, image, digest, input, seal;
static uint8_t answer_beside[2 * GUARD_ANSWER_LENGTH], request_beside[2 * GUARD_REQUEST_LENGTH], image_beside[1 << 16],
    digest_beside[GUARD_DIGEST_LENGTH];
static int is_high;
static unsigned long line_number, events, lists;
static char *line, last_event[120];
static uint8_t *bytes[2]; /* the bytes of a line's fields */
static size_t lengths[2];
static char *text; /* an outcome in words */

static void differ(const char *format, ...)
{
    va_list words;
    va_start(words, format);
    printf("driver: list %s, line %lu (%.100s): ", run->name, line_number, last_event);
    vprintf(format, words);
    va_end(words);
    printf("\n");
    exit(1);
}

/* A read or write where none may be. Nothing was in the library when the guard was, so printing is safe here. */
static void on_fault(int number, siginfo_t *info, void *context)
{
    (void)context;
    printf("driver: list %s, line %lu (%.100s): signal %d at %p\n", run->name, line_number, last_event, number,
        info->si_addr);
    fflush(stdout);
    _exit(1);
}

static void malformed(void)
{
    fprintf(stderr, "driver: line %lu is malformed: %.60s\n", line_number, line);
    exit(2);
}

/* ---- lines */

static unsigned digit(char c)
{
    const char *digits = "0123456789abcdef", *at = c ? strchr(digits, c) : NULL;
    if (!at)
        malformed();
    return (unsigned)(at - digits);
}

/* One field of bytes; where it ends in the line. */
static const char *read_bytes(const char *from, int field)
{
    size_t n = 0;
    for (; *from && *from != ' '; from += 2) {
        bytes[field][n++] = (uint8_t)(16 * digit(from[0]) + digit(from[1]));
        if (from[2] != '*')
            continue;
        char *end;
        size_t times = strtoul(from + 3, &end, 10);
        if (!times || n + times > INPUT)
            malformed();
        memset(bytes[field] + n, bytes[field][n - 1], times - 1);
        n += times - 1;
        from = end - 2;
    }
    lengths[field] = n;
    return from;
}

static char *write_hex(char *to, const uint8_t *from, size_t n)
{
    *to++ = ' ';
    for (size_t i = 0; i < n; i++) {
        *to++ = "0123456789abcdef"[from[i] / 16];
        *to++ = "0123456789abcdef"[from[i] % 16];
    }
    *to = 0;
    return to;
}

/* ---- what was promised */

/* How many bytes an outcome puts to the front of each place. */
struct given { size_t answer, request, image, digest; };

static struct given given_by(char letter, guard_outcome o)
{
    struct given n = {0, 0, 0, 0};
    if (o.kind == GUARD_DONE && letter == 's') {
        n.image = o.length;
        n.digest = GUARD_DIGEST_LENGTH;
    } else if (o.kind == GUARD_DONE && letter != 'l') {
        n.answer = o.length;
    } else if (o.kind == GUARD_ASK) {
        n.request = o.length;
    } else if (o.length) {
        differ("%zu bytes of an outcome that has none", o.length);
    }
    return n;
}

static void untouched(const struct place *p, size_t first)
{
    if (first > p->length)
        differ("%zu bytes in the %s of %zu", first, p->name, p->length);
    if (!place_untouched(p, first))
        differ("%s is touched outside of its first %zu bytes", p->name, first);
}

static void check_places(struct given n)
{
    untouched(&answer, n.answer);
    untouched(&request, n.request);
    untouched(&image, n.image);
    untouched(&digest, n.digest);
    untouched(&run->memory[0], run->memory[0].length);
    untouched(&run->memory[1], 0);
}

/* The outcome in deskrun's words; a save's digest stands behind its image. */
static void write_outcome(guard_outcome o, struct given n)
{
    static const char *const words[] = {"done", "ask", "refused", "stopped"};
    if (o.kind < GUARD_DONE || o.kind > GUARD_STOPPED)
        differ("an outcome of kind %d", o.kind);
    char *to = text + sprintf(text, "%s", words[o.kind]);
    if (o.kind != GUARD_ASK)
        to += sprintf(to, " %llu", (unsigned long long)o.number);
    else if (o.number)
        differ("a request with number %llu", (unsigned long long)o.number);
    if (n.answer)
        to = write_hex(to, answer.at, n.answer);
    if (n.request)
        to = write_hex(to, request.at, n.request);
    if (n.image)
        to = write_hex(to, image.at, n.image);
    if (n.digest)
        write_hex(to, digest.at, n.digest);
}

static void restore_places(struct given n)
{
    place_restore(&answer, n.answer);
    place_restore(&request, n.request);
    place_restore(&image, n.image);
    place_restore(&digest, n.digest);
}

/* ---- events */

/* To another address, with `length` bytes of it; the old place is overwritten. */
static void move_guard(size_t length)
{
    struct place old = run->memory[0];
    run->memory[0] = run->memory[1];
    run->memory[1] = old;
    place_hold(&run->memory[0], old.at, length);
    place_clear(&run->memory[1]);
}

static void lend(size_t answer_length, size_t request_length, size_t image_length)
{
    place_lend(&answer, answer_length);
    place_lend(&request, request_length);
    place_lend(&image, image_length);
    place_lend(&digest, GUARD_DIGEST_LENGTH);
}

static guard_outcome enter(char letter)
{
    struct place *m = &run->memory[0];
    switch (letter) {
    case 'c': return (run->is_read_only ? guard_entry_reader_call : guard_entry_call)(m->at, m->length, input.at,
        input.length, answer.at, answer.length, request.at, request.length);
    case 'r': return guard_entry_reply(m->at, m->length, input.at, input.length, answer.at, answer.length, request.at,
        request.length);
    case 's': return guard_entry_save(m->at, m->length, image.at, image.length, digest.at);
    case 'l': return guard_entry_load(m->at, m->length, input.at, input.length, seal.at, seal.length);
    default: return guard_entry_fresh(m->at, m->length);
    }
}

static guard_outcome enter_beside(char letter)
{
    struct place *m = &run->beside;
    switch (letter) {
    case 'c': return guard_entry_call(m->at, m->length, input.at, input.length, answer_beside, answer.length,
        request_beside, request.length);
    case 'r': return guard_entry_reply(m->at, m->length, input.at, input.length, answer_beside, answer.length,
        request_beside, request.length);
    case 's': return guard_entry_save(m->at, m->length, image_beside, image.length, digest_beside);
    default: return guard_entry_load(m->at, m->length, input.at, input.length, seal.at, seal.length);
    }
}

static void same_bytes(const struct place *p, const uint8_t *beside, size_t n)
{
    if (n && memcmp(p->at, beside, n))
        differ("%s is not the one of the guard beside", p->name);
}

/* What a read-only guard came to, the guard beside it comes to; what it refused 30 the other never sees. */
static void compare_beside(char letter, guard_outcome o, struct given n)
{
    if (letter != 'c' || o.kind != GUARD_REFUSED || o.number != GUARD_READ_ONLY) {
        guard_outcome other = enter_beside(letter);
        if (o.kind != other.kind || o.number != other.number || o.length != other.length)
            differ("the guard beside comes to kind %d, number %llu, %zu bytes", other.kind,
                (unsigned long long)other.number, other.length);
    }
    same_bytes(&answer, answer_beside, n.answer);
    same_bytes(&request, request_beside, n.request);
    same_bytes(&image, image_beside, n.image);
    same_bytes(&digest, digest_beside, n.digest);
    if (memcmp(run->memory[0].at, run->beside.at, GUARD_MEMORY_LENGTH))
        differ("the memory is not the one of the guard beside");
}

/* What an event comes to, in `text`. */
static void hand_in(char letter)
{
    guard_outcome o = enter(letter);
    struct given n = given_by(letter, o);
    check_places(n);
    if (run->is_read_only && letter != 'f' && run->memory[0].length == GUARD_MEMORY_LENGTH)
        compare_beside(letter, o, n);
    write_outcome(o, n);
    restore_places(n);
    events++;
}

static void event(char letter)
{
    size_t room = 0;
    snprintf(last_event, sizeof last_event, "%s", line);
    places_turn(is_high, events % 16 < 8 ? 0 : events % 8);
    if (letter == 's')
        room = strtoul(line + 2, NULL, 10);
    else {
        const char *end = read_bytes(line + 2, 0);
        place_input(&input, bytes[0], lengths[0]);
        if (letter == 'l') {
            read_bytes(end + 1, 1);
            place_input(&seal, bytes[1], lengths[1]);
        }
    }
    lend(run->answer, run->request, room);
    move_guard(GUARD_MEMORY_LENGTH);
    hand_in(letter);
}

static void compare(const char *expected)
{
    if (strcmp(text, expected))
        differ("%.300s, not %.300s", text, expected);
}

/* Every entry on a memory that is too short: 34 before anything else, and no byte is changed. */
static void try_short(size_t length)
{
    static uint8_t kept[GUARD_MEMORY_LENGTH];
    memcpy(kept, run->memory[0].at, GUARD_MEMORY_LENGTH);
    place_input(&input, (const uint8_t *)"\1\7/a", 4);
    place_input(&seal, kept, GUARD_DIGEST_LENGTH);
    lend(GUARD_ANSWER_LENGTH, GUARD_REQUEST_LENGTH, GUARD_IMAGE_LENGTH);
    for (const char *letter = "crslf"; *letter; letter++) {
        move_guard(length);
        hand_in(*letter);
        compare("refused 34");
        if (length && memcmp(run->memory[0].at, kept, length))
            differ("a memory of %zu bytes is changed", length);
        place_clear(&run->memory[0]);
        place_hold(&run->memory[0], kept, GUARD_MEMORY_LENGTH);
    }
}

static void end_list(void)
{
    if (!run->name[0])
        return;
    try_short(0);
    try_short(1);
    try_short(GUARD_MEMORY_LENGTH - 1);
    lists++;
}

/* A fresh guard, of bytes that were something else. */
static void begin_list(const char *name, int is_read_only)
{
    end_list();
    snprintf(run->name, NAME, "%s", name);
    run->is_read_only = is_read_only;
    run->answer = GUARD_ANSWER_LENGTH;
    run->request = GUARD_REQUEST_LENGTH;
    move_guard(GUARD_MEMORY_LENGTH);
    hand_in('f');
    compare("done 0");
    memcpy(run->beside.at, run->memory[0].at, GUARD_MEMORY_LENGTH);
}

/* Back to what was kept, and with it the guard beside, which was the same. */
static void go_back(void)
{
    memcpy(run->memory[0].at, run->kept, GUARD_MEMORY_LENGTH);
    memcpy(run->beside.at, run->kept, GUARD_MEMORY_LENGTH);
}

/* ---- the whole */

static void do_line(void)
{
    switch (line[0]) {
    case 'f': case 'o': begin_list(line + 2, line[0] == 'o'); break;
    case 'g': run = &runs[line[2] == '1']; break;
    case 'b':
        if (sscanf(line + 2, "%zu %zu", &run->answer, &run->request) != 2)
            malformed();
        break;
    case 'k': memcpy(run->kept, run->memory[0].at, GUARD_MEMORY_LENGTH); break;
    case 'a': go_back(); break;
    case 'c': case 'r': case 's': case 'l': event(line[0]); break;
    case '=': compare(line + 2); break;
    default: malformed();
    }
}

static void set_up(void)
{
    static const struct sigaction fault = {.sa_sigaction = on_fault, .sa_flags = SA_SIGINFO};
    sigaction(SIGSEGV, &fault, NULL);
    sigaction(SIGBUS, &fault, NULL);
    places_begin(is_high);
    answer = place_for("the answer", 2 * GUARD_ANSWER_LENGTH);
    request = place_for("the request", 2 * GUARD_REQUEST_LENGTH);
    image = place_for("the image", 1 << 16);
    digest = place_for("the digest", GUARD_DIGEST_LENGTH);
    input = place_for("the input", INPUT);
    seal = place_for("the digest handed in", INPUT);
    for (int i = 0; i < 4; i++) {
        runs[i / 2].memory[i % 2] = place_for("a place of the guard", GUARD_MEMORY_LENGTH);
        place_lend(&runs[i / 2].memory[i % 2], GUARD_MEMORY_LENGTH);
    }
    for (int i = 0; i < 2; i++) {
        bytes[i] = malloc(INPUT);
        runs[i].beside = place_for("the place of the guard beside", GUARD_MEMORY_LENGTH);
        place_lend(&runs[i].beside, GUARD_MEMORY_LENGTH);
    }
    text = malloc(4 * GUARD_IMAGE_LENGTH);
}

int main(int n, char **words)
{
    size_t room = 0;
    ssize_t got;
    if (n != 2 || (strcmp(words[1], "low") && strcmp(words[1], "high")))
        return 2;
    is_high = !strcmp(words[1], "high");
    set_up();
    while ((got = getline(&line, &room, stdin)) > 0) {
        line_number++;
        if (line[got - 1] == '\n')
            line[got - 1] = 0;
        do_line();
    }
    for (run = runs; run < runs + 2; run++)
        end_list();
    printf("%lu lists, %lu events\n", lists, events);
    return 0;
}
