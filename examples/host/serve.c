/* The host as a program of its own, which speaks the wire form of docs/INTEGRATION.md, 9: serve [--budget BYTES]
 * DIRECTORY. With a budget its disk is full when nodes and files take so many bytes (host_limit). */
#include <stdio.h>
#include <stdlib.h>
#include <string.h>

#include "copies.h"

enum { REQUEST = 1, SYNC = 2, START = 3 }; /* the first byte of a frame */

static copies kept;
static uint8_t frame[1 + GUARD_REQUEST_LENGTH], reply[HOST_REPLY_LENGTH];

static void need(int good, const char *what)
{
    if (!good) {
        perror(what);
        exit(1);
    }
}

/* ---- frames */

/* All of these bytes, or 0 at the end of the input. */
static int get(uint8_t *to, size_t length)
{
    size_t n = fread(to, 1, length, stdin);
    need(n == length || (n == 0 && feof(stdin)), "a frame that is cut short");
    return n == length;
}

static void answer(size_t length)
{
    uint8_t head[4];
    guard_put_number(head, length, sizeof head);
    size_t put = fwrite(head, 1, 4, stdout) + fwrite(reply, 1, length, stdout);
    need(put == 4 + length && !fflush(stdout), "standard output");
}

/* How long the reply is. */
static size_t obey(size_t length)
{
    const uint8_t *digest = length == 1 ? NULL : frame + 1;
    if (frame[0] == REQUEST)
        return host_reply(kept.host, frame + 1, length - 1, reply);
    need(frame[0] == START || frame[0] == SYNC, "a frame of another kind");
    need((length == 1 && frame[0] == START) || length == 1 + GUARD_DIGEST_LENGTH, "a frame of another length");
    need(!(frame[0] == START ? copies_start : copies_sync)(&kept, digest), frame[0] == START ? "start" : "sync");
    return 0;
}

/* The budget of a command line, 0 where it names none; exits where that is not to be understood. */
static uint64_t budget_of(int count, char **words)
{
    char *end = "";
    uint64_t budget = count == 4 && !strcmp(words[1], "--budget") ? strtoull(words[2], &end, 10) : 0;
    if ((count == 4 && budget > 0 && !*end) || count == 2)
        return budget;
    fputs("serve [--budget BYTES] DIRECTORY\n", stderr);
    exit(2);
}

int main(int count, char **words)
{
    uint8_t head[4];
    uint64_t budget = budget_of(count, words);
    copies_begin(&kept, words[count - 1]);
    kept.budget = budget;
    while (get(head, sizeof head)) {
        size_t length = guard_get_number(head);
        need(length > 0 && length <= sizeof frame && get(frame, length), "a frame of another length");
        need(kept.host || frame[0] == START, "a frame before the first start");
        answer(obey(length));
    }
    copies_end(&kept);
    return 0;
}
