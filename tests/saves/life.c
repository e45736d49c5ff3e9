/* A client with saves.h over a host with copies.h, driven by lines: life PLACE
 *
 *     b          power-up; prints fresh, loaded or failed and errno
 *     c CALL     a call, as drive.c of tests/host prints it
 *     s          a save; prints saved, refused and the number, or failed and errno
 *     k COUNT    the program kills itself at the disk's change number COUNT from now; prints armed
 *     x NAME     from now on this system call fails (points.c), or, without a name, none; prints armed
 *     n FROM CALLS ERROR
 *                of the system calls that may need room, so many from number FROM on fail (points.h); prints how many of
 *                those armed before were still to come */
#define _XOPEN_SOURCE 700 /* setenv */
#include <errno.h>
#include <stdio.h>
#include <stdlib.h>
#include <string.h>
#include <sys/stat.h>
#include <unistd.h>

#include "client.h"
#include "copies.h"
#include "durable.h"
#include "points.h"
#include "saves.h"

enum { LINE = 2 * GUARD_CALL_LENGTH + 8 };

static client c;
static copies kept;
static saves s;
static char line[LINE];
static uint8_t bytes[LINE / 2];

static int sync_host(void *host, const uint8_t *digest) { return copies_sync(host, digest); }
static int start_host(void *host, const uint8_t *digest) { return copies_start(host, digest); }

/* The host is another one after each start. */
static size_t ask(void *host, const uint8_t *request, size_t length, uint8_t reply[HOST_REPLY_LENGTH])
{
    return host_reply(((copies *)host)->host, request, length, reply);
}

static void begin(void)
{
    client_begin(&c, ask, &kept, NULL);
    copies_begin(&kept, "host/files");
    s = (saves){.images = "host", .own = "client", .sync = sync_host, .start = start_host, .host = &kept};
    int came = saves_start(&s, &c.layer);
    came < 0 ? printf("failed %d", errno) : printf(came == SAVES_LOADED ? "loaded" : "fresh");
}

static void save(void)
{
    guard_outcome o;
    int came = saves_save(&s, &c.layer, &o);
    came < 0 ? printf("failed %d", errno) : came ? printf("refused %d", (int)o.number) : printf("saved");
}

static void call(const char *digits)
{
    size_t n = 0;
    for (unsigned byte; sscanf(digits, "%2x", &byte) == 1; digits += 2)
        bytes[n++] = (uint8_t)byte;
    guard_outcome o = client_call(&c, bytes, n);
    printf("%s %llu ", guard_outcome_name(o.kind), (unsigned long long)o.number);
    for (size_t i = 0; i < o.length; i++)
        printf("%02x", c.layer.answer[i]);
}

static void fill(const char *words)
{
    printf("%lu", full_disk.calls);
    if (sscanf(words, "%lu %lu %d", &full_disk.from, &full_disk.calls, &full_disk.error) != 3)
        full_disk.calls = 0;
}

int main(int n, char **words)
{
    if (n != 2 || chdir(words[1]))
        return 2;
    durable_begin();
    while (fgets(line, sizeof line, stdin)) {
        line[strcspn(line, "\n")] = '\0';
        switch (line[0]) {
        case 'b': begin(); break;
        case 'c': call(line + 2); break;
        case 's': save(); break;
        case 'k': points_left = strtoul(line + 2, NULL, 10); fputs("armed", stdout); break;
        case 'x': setenv("FAILS", line[1] == ' ' ? line + 2 : "", 1), fputs("armed", stdout); break;
        case 'n': fill(line + 1); break;
        default: fputs("bad line", stdout);
        }
        putchar('\n');
        fflush(stdout);
    }
    copies_end(&kept);
    return 0;
}
