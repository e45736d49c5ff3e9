/* The client of examples/host over the archive and the real host, driven by lines: drive TREE TABLE
 *
 *     c CALL            a call, with its requests and replies; prints done, refused or stopped as the desk program does
 *     s                 the host's tree brought to the disk, and a save; prints done, its number, the image, the digest
 *     f                 the host is closed and opened again, the guard is a fresh one; prints fresh
 *     l IMAGE DIGEST    a load
 *     k COUNT           the program kills itself at the disk's change number COUNT from now (points.c); prints armed
 *     e COUNT           from now on each COUNT-th system call fails for a moment; prints armed
 *     n FROM CALLS ERROR
 *                       of the system calls that may need room, so many from number FROM on fail (points.h); prints
 *                       how many of those armed before were still to come
 *     b BYTES           the host's disk has so many bytes from now on (host_limit); prints armed */
#include <stdio.h>
#include <stdlib.h>
#include <string.h>

#include "client.h"
#include "durable.h"
#include "points.h"

enum { LINE = 2 * (GUARD_IMAGE_LENGTH + GUARD_DIGEST_LENGTH) + 8 };

static client c;
static char line[LINE];
static uint8_t bytes[LINE / 2], digest[GUARD_DIGEST_LENGTH];
static const char *tree, *table;
static uint64_t budget;

static void start(void)
{
    if (c.host)
        host_close(c.host);
    host *h = host_open(tree, table);
    if (!h) {
        perror(tree);
        exit(2);
    }
    host_limit(h, budget);
    client_begin(&c, client_ask_host, h, NULL);
}

/* Digits up to a blank or the end of the line; how many bytes they are. */
static size_t read_hex(const char **at, uint8_t *to)
{
    size_t n = 0;
    unsigned byte;
    for (; sscanf(*at, "%2x", &byte) == 1 && **at != ' '; *at += 2)
        to[n++] = (uint8_t)byte;
    return n;
}

static void print_hex(const uint8_t *from, size_t n)
{
    if (n > 0)
        putchar(' ');
    for (size_t i = 0; i < n; i++)
        printf("%02x", from[i]);
}

static void print_outcome(guard_outcome o, const uint8_t *data)
{
    printf("%s %llu", guard_outcome_name(o.kind), (unsigned long long)o.number);
    print_hex(data, o.length);
}

static void save(void)
{
    if (host_sync(c.host)) {
        perror("sync");
        exit(2);
    }
    guard_outcome o = guard_client_save(&c.layer, bytes, GUARD_IMAGE_LENGTH, digest);
    print_outcome(o, bytes);
    if (o.kind == GUARD_DONE)
        print_hex(digest, sizeof digest);
}

static void load(const char *at)
{
    size_t n = read_hex(&at, bytes);
    at++;
    size_t m = read_hex(&at, bytes + n);
    print_outcome(guard_client_load(&c.layer, bytes, n, bytes + n, m), NULL);
}

static void fill(const char *words)
{
    printf("%lu", full_disk.calls);
    if (sscanf(words, "%lu %lu %d", &full_disk.from, &full_disk.calls, &full_disk.error) != 3)
        full_disk.calls = 0;
}

static void obey(char letter, const char *rest)
{
    switch (letter) {
    case 'c': print_outcome(client_call(&c, bytes, read_hex(&rest, bytes)), c.layer.answer); break;
    case 's': save(); break;
    case 'f': start(); fputs("fresh", stdout); break;
    case 'l': load(rest); break;
    case 'k': points_left = strtoul(rest, NULL, 10); fputs("armed", stdout); break;
    case 'e': faults_every = (unsigned)strtoul(rest, NULL, 10); fputs("armed", stdout); break;
    case 'n': fill(rest); break;
    case 'b': host_limit(c.host, budget = strtoull(rest, NULL, 10)); fputs("armed", stdout); break;
    default: fputs("bad line", stdout);
    }
}

int main(int n, char **words)
{
    if (n != 3)
        return 2;
    tree = words[1];
    table = words[2];
    durable_begin();
    start();
    while (fgets(line, sizeof line, stdin)) {
        line[strcspn(line, "\n")] = '\0';
        obey(line[0], line[0] && line[1] ? line + 2 : "");
        putchar('\n');
        fflush(stdout);
    }
    host_close(c.host);
    return 0;
}
