/* Every function of guard.h once, in C and in C++: a file made, written, saved, and loaded by a second guard that
 * stands at an odd address, and by a read-only one. */
#include <guard.h>
#include <stdio.h>
#include <string.h>

static guard first;
static struct { char odd; guard second; guard_reader reader; } beside;
static uint8_t answer[GUARD_ANSWER_LENGTH], request[GUARD_REQUEST_LENGTH], image[GUARD_IMAGE_LENGTH],
    digest[GUARD_DIGEST_LENGTH];
static int step;

static void expect(guard_outcome o, int kind, uint64_t number, size_t length)
{
    step++;
    if (o.kind == kind && o.number == number && o.length == length)
        return;
    printf("header: step %d: %d %lu %lu, not %d %lu %lu\n", step, o.kind, (unsigned long)o.number,
        (unsigned long)o.length, kind,
           (unsigned long)number, (unsigned long)length);
    step = -1000;
}

static guard_outcome call(guard *g, const char *bytes, size_t n)
{
    return guard_call(g, (const uint8_t *)bytes, n, answer, sizeof answer, request, sizeof request);
}

static guard_outcome reply(guard *g, const char *bytes, size_t n)
{
    return guard_reply(g, (const uint8_t *)bytes, n, answer, sizeof answer, request, sizeof request);
}

static void make_file(guard *g)
{
    guard_fresh(g);
    expect(call(g, "\1\7/a", 4), GUARD_ASK, 0, 4);
    expect(call(g, "\1\7/a", 4), GUARD_REFUSED, GUARD_PENDING, 0);
    expect(reply(g, "\2\0\0\0", 4), GUARD_DONE, 2, 0);
    expect(reply(g, "\2\0\0\0", 4), GUARD_REFUSED, GUARD_NOT_PENDING, 0);
    expect(call(g, "\3\3/a", 4), GUARD_ASK, 0, 4);
    expect(reply(g, "\0\0\0\0", 4), GUARD_DONE, 2, 0);
    expect(call(g, "\7\2\0\0\0hello", 10), GUARD_ASK, 0, GUARD_REQUEST_LENGTH);
    expect(reply(g, "\0\4\0\0", 4), GUARD_DONE, 5, 0);
}

static void refusals(guard *g)
{
    expect(guard_call(g, NULL, 0, answer, sizeof answer - 1, request, sizeof request), GUARD_REFUSED,
        GUARD_SHORT_BUFFER, 0);
    expect(guard_call(g, NULL, 0, answer, sizeof answer, request, sizeof request - 1), GUARD_REFUSED,
        GUARD_SHORT_BUFFER, 0);
    expect(guard_entry_fresh(g->memory, GUARD_MEMORY_LENGTH - 1), GUARD_REFUSED, GUARD_SHORT_BUFFER, 0);
    expect(guard_call(g, NULL, 0, answer, sizeof answer, request, sizeof request), GUARD_REFUSED, GUARD_MALFORMED, 0);
    expect(guard_call(g, NULL, 0, NULL, 0, request, sizeof request), GUARD_REFUSED, GUARD_SHORT_BUFFER, 0);
    expect(guard_save(g, image, sizeof image, digest), GUARD_REFUSED, GUARD_IN_USE, 0);
    expect(call(g, "\4\2\0\0\0", 5), GUARD_ASK, 0, 5);
    expect(reply(g, "\0\0\0\0", 4), GUARD_DONE, 0, 0);
    expect(guard_save(g, NULL, 0, digest), GUARD_REFUSED, GUARD_SHORT_BUFFER, 0);
}

/* A map at the end of the space, whose address is the number; it lives on, and is unmapped after the save. */
static void map(guard *g)
{
    static uint8_t zeros[GUARD_REPLY_LENGTH] = {0, 0, 255, 255, 255, 255, 255, 255};
    expect(call(g, "\16\1\0\1\0", 5), GUARD_REFUSED, GUARD_MALFORMED, 0);
    expect(call(g, "\16\0\0\1\0", 5), GUARD_ASK, 0, 5);
    expect(guard_reply(g, zeros, sizeof zeros, answer, sizeof answer, request, sizeof request), GUARD_DONE,
        UINT64_MAX - GUARD_MAP_LENGTH + 1, 0);
}

static void unmap(guard *g)
{
    expect(call(g, "\17\0\0\377\377\377\377\377\377", 9), GUARD_ASK, 0, 9);
    expect(reply(g, "\0\0\0\0", 4), GUARD_DONE, 0, 0);
    expect(call(g, "\17\0\0\377\377\377\377\377\377", 9), GUARD_REFUSED, GUARD_MALFORMED, 0);
}

/* The open file gets another path: its handle goes on, its own path asks for nothing, nothing is replaced; and back. */
static void rename_file(guard *g)
{
    expect(call(g, "\20\2/a", 4), GUARD_REFUSED, GUARD_MALFORMED, 0);
    expect(call(g, "\20\2/b/a", 6), GUARD_REFUSED, GUARD_ABSENT, 0);
    expect(call(g, "\20\2/a/a", 6), GUARD_DONE, 0, 0);
    expect(call(g, "\20\2/a/", 5), GUARD_REFUSED, GUARD_PRESENT, 0);
    expect(call(g, "\20\1//b", 5), GUARD_REFUSED, GUARD_IN_USE, 0);
    expect(call(g, "\20\2/a/b", 6), GUARD_ASK, 0, 6);
    expect(reply(g, "\0\0\0\0", 4), GUARD_DONE, 0, 0);
    expect(call(g, "\15/a", 3), GUARD_REFUSED, GUARD_ABSENT, 0);
    expect(call(g, "\5\2\0\0\0\5\0\0\0\0\0\0\0", 13), GUARD_DONE, 5, 0);
    expect(call(g, "\20\2/b/a", 6), GUARD_ASK, 0, 6);
    expect(reply(g, "\0\0\0\0", 4), GUARD_DONE, 0, 0);
}

/* A full disk ends a call and its request: a new node, a growth, and a write at its second page, which leaves one; it
 * stops a cut. */
static void full(guard *g)
{
    static const char disk_full[] = "\344\377\377\377";
    static uint8_t write[5 + GUARD_PAGE_LENGTH + 1] = {GUARD_WRITE, 2};
    guard_fresh(g);
    expect(call(g, "\1\7/a", 4), GUARD_ASK, 0, 4);
    expect(reply(g, disk_full, 4), GUARD_REFUSED, GUARD_FULL, 0);
    expect(reply(g, disk_full, 4), GUARD_REFUSED, GUARD_NOT_PENDING, 0);
    make_file(g);
    expect(call(g, "\10\2\0\0\0\0\1\0\0\0\0\0\0", 13), GUARD_ASK, 0, 9);
    expect(reply(g, disk_full, 4), GUARD_REFUSED, GUARD_FULL, 0);
    expect(call(g, "\5\2\0\0\0\0\0\0\0\0\0\0\0", 13), GUARD_DONE, 0, 0);
    expect(guard_call(g, write, sizeof write, answer, sizeof answer, request, sizeof request), GUARD_ASK, 0,
        GUARD_REQUEST_LENGTH);
    expect(reply(g, "\0\4\0\0", 4), GUARD_ASK, 0, GUARD_REQUEST_LENGTH);
    expect(reply(g, disk_full, 4), GUARD_DONE, GUARD_PAGE_LENGTH, 0);
    expect(call(g, "\10\2\0\0\0\0\0\0\0\0\0\0\0", 13), GUARD_ASK, 0, 9);
    expect(reply(g, disk_full, 4), GUARD_STOPPED, GUARD_STOP_STATUS, 0);
}

static guard_outcome look(const char *bytes, size_t n)
{
    return guard_reader_call(&beside.reader, (const uint8_t *)bytes, n, answer, sizeof answer, request, sizeof request);
}

static guard_outcome look_reply(const void *bytes, size_t n)
{
    return guard_reader_reply(&beside.reader, (const uint8_t *)bytes, n, answer, sizeof answer, request,
        sizeof request);
}

/* A read-only guard: it reads what was saved, refuses what would change it, and saves the same image. */
static void reader(size_t length, const uint8_t *page)
{
    static uint8_t again[GUARD_IMAGE_LENGTH], seal[GUARD_DIGEST_LENGTH];
    guard_reader *g = &beside.reader;
    expect(look("\15/", 2), GUARD_REFUSED, GUARD_STOPPED_FOR_GOOD, 0); /* of zeros */
    guard_reader_fresh(g);
    expect(guard_entry_reader_call(g->memory, GUARD_MEMORY_LENGTH - 1, NULL, 0, answer, sizeof answer, request,
        sizeof request), GUARD_REFUSED, GUARD_SHORT_BUFFER, 0);
    expect(guard_reader_load(g, image, length, digest, 31), GUARD_REFUSED, GUARD_WRONG_DIGEST, 0);
    expect(guard_reader_load(g, image, length, digest, sizeof digest), GUARD_DONE, 0, 0);
    expect(look("\1\7/b", 4), GUARD_REFUSED, GUARD_READ_ONLY, 0);
    expect(look("\20\2/a/b", 6), GUARD_REFUSED, GUARD_READ_ONLY, 0);
    expect(look("\3\3/a", 4), GUARD_REFUSED, GUARD_READ_ONLY, 0);
    expect(look("\3\4/a", 4), GUARD_REFUSED, GUARD_MALFORMED, 0);
    expect(look("\3\1/b", 4), GUARD_REFUSED, GUARD_ABSENT, 0);
    expect(look("\3\1/a", 4), GUARD_ASK, 0, 4);
    expect(look_reply("\0\0\0\0", 4), GUARD_DONE, 2, 0);
    expect(look("\6\2\0\0\0\5\0\0\0", 9), GUARD_ASK, 0, 9);
    expect(look_reply(page, GUARD_PAGE_LENGTH), GUARD_DONE, 5, 5);
    expect(look("\7\2\0\0\0hello", 10), GUARD_REFUSED, GUARD_READ_ONLY, 0);
    expect(guard_reader_save(g, again, sizeof again, seal), GUARD_REFUSED, GUARD_IN_USE, 0);
    expect(look("\4\2\0\0\0", 5), GUARD_ASK, 0, 5);
    expect(look_reply("\0\0\0\0", 4), GUARD_DONE, 0, 0);
    expect(guard_reader_save(g, again, sizeof again, seal), GUARD_DONE, length, length);
    if (memcmp(again, image, length) || memcmp(seal, digest, sizeof seal))
        step = -1000;
}

/* The version, and the cursor after a truncation: behind the new end it stands at that end, else it stays. */
static void notes(guard *g)
{
    if (strcmp(guard_version(), GUARD_VERSION))
        step = -1000;
    expect(call(g, "\10\2\0\0\0\5\0\0\0\0\0\0\0", 13), GUARD_DONE, 0, 0); /* to the size that it has */
    expect(call(g, "\10\2\0\0\0\0\0\0\0\0\0\0\0", 13), GUARD_ASK, 0, 9);
    expect(reply(g, "\0\0\0\0", 4), GUARD_DONE, 0, 0);
    expect(call(g, "\10\2\0\0\0\3\0\0\0\0\0\0\0", 13), GUARD_ASK, 0, 9); /* longer again */
    expect(reply(g, "\0\0\0\0", 4), GUARD_DONE, 0, 0);
    expect(call(g, "\10\2\0\0\0\1\0\1\0\0\0\0\0", 13), GUARD_REFUSED, GUARD_TOO_BIG, 0);
    expect(call(g, "\7\2\0\0\0hello", 10), GUARD_ASK, 0, GUARD_REQUEST_LENGTH); /* at 0: no fetch, five bytes in all */
    expect(reply(g, "\0\4\0\0", 4), GUARD_DONE, 5, 0);
}

int main(void)
{
    guard *second = &beside.second;
    uint8_t page[GUARD_PAGE_LENGTH] = "hello";
    make_file(&first);
    notes(&first);
    rename_file(&first);
    refusals(&first);
    map(&first);
    guard_outcome o = guard_save(&first, image, sizeof image, digest);
    expect(o, GUARD_DONE, 4 + 15 + 16 + 4 + 32, 4 + 15 + 16 + 4 + 32);
    unmap(&first);
    guard_fresh(second);
    expect(guard_load(second, image, o.length, digest, 31), GUARD_REFUSED, GUARD_WRONG_DIGEST, 0);
    expect(guard_load(second, image, o.length, digest, sizeof digest), GUARD_DONE, 0, 0);
    expect(call(second, "\3\1/a", 4), GUARD_ASK, 0, 4);
    first = *second; /* a copy, between a request and its reply */
    expect(reply(&first, "\0\0\0\0", 4), GUARD_DONE, 2, 0);
    expect(call(&first, "\6\2\0\0\0\5\0\0\0", 9), GUARD_ASK, 0, 9);
    expect(guard_reply(&first, page, sizeof page, answer, sizeof answer, request, sizeof request), GUARD_DONE, 5, 5);
    expect(reply(second, "\377\377\377\377", 4), GUARD_STOPPED, GUARD_STOP_DESCRIPTOR, 0);
    expect(call(second, "\15/", 2), GUARD_REFUSED, GUARD_STOPPED_FOR_GOOD, 0);
    if (memcmp(answer, "hello", 5))
        step = -1000;
    reader(o.length, page);
    full(second);
    return step < 0;
}
