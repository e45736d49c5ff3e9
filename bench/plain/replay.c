/* Runs lists of events on the guard in plain C: the lines of `python3 -m model.transcripts` (tests/model/transcripts.py
 * says what they are) from standard input. Every answer must be the one that stands below its event, and what an answer
 * does not name must be untouched. */
#define _GNU_SOURCE
#include <stdio.h>
#include <stdlib.h>
#include <string.h>
#include "guard.h"

enum { UNTOUCHED = 0xa5, LONGEST = 2 * 50000 };

typedef outcome (*entry)(struct plain_guard *, const uint8_t *, size_t, uint8_t *, size_t, uint8_t *, size_t);

static struct plain_guard plain;
static entry call_entry; /* of the guard, or of the read-only one */
static uint8_t answer[2 * ANSWER], request[2 * REQUEST], image[60000], digest[DIGEST], given[LONGEST];
static size_t answer_length, request_length;
static char text[2 * LONGEST];

static unsigned digit(char c) { return (unsigned)(c <= '9' ? c - '0' : c - 'a' + 10); }

/* The bytes of the digits up to a blank or the end; the place behind them. */
static const char *bytes_of(const char *p, uint8_t *out, size_t *n)
{
    for (*n = 0; *p && *p != ' '; p += 2)
        out[(*n)++] = (uint8_t)(digit(p[0]) * 16 + digit(p[1]));
    return p;
}

static char *print_bytes(char *to, const uint8_t *b, size_t n)
{
    static const char digits[] = "0123456789abcdef";
    if (n)
        *to++ = ' ';
    for (size_t i = 0; i < n; i++)
        *to++ = digits[b[i] >> 4], *to++ = digits[b[i] & 15];
    *to = 0;
    return to;
}

static void print(outcome o, const uint8_t *bytes)
{
    char *to = text;
    switch (o.kind) {
    case ASK: to += sprintf(to, "ask"); break;
    case DONE: to += sprintf(to, "done %llu", (unsigned long long)o.number); break;
    case REFUSED: to += sprintf(to, "refused %llu", (unsigned long long)o.number); break;
    default: to += sprintf(to, "stopped %llu", (unsigned long long)o.number);
    }
    print_bytes(to, bytes, o.length);
}

/* Whether bytes from `from` on are as they were. */
static int is_untouched(const uint8_t *b, size_t from, size_t n)
{
    for (size_t i = from; i < n; i++)
        if (b[i] != UNTOUCHED)
            return 0;
    return 1;
}

static void wipe(void)
{
    memset(answer, UNTOUCHED, sizeof answer);
    memset(request, UNTOUCHED, sizeof request);
    memset(image, UNTOUCHED, sizeof image);
    memset(digest, UNTOUCHED, sizeof digest);
}

static int hand_in(entry enter, const char *field)
{
    size_t n;
    bytes_of(field, given, &n);
    outcome o = enter(&plain, given, n, answer, answer_length, request, request_length);
    print(o, o.kind == ASK ? request : answer);
    return is_untouched(answer, o.kind == DONE ? o.length : 0, sizeof answer) &&
        is_untouched(request, o.kind == ASK ? o.length : 0, sizeof request);
}

static int save(const char *field)
{
    size_t n = strtoul(field, NULL, 10);
    if (n > sizeof image)
        n = sizeof image;
    outcome o = plain_save(&plain, image, n, digest);
    print(o, image);
    if (o.kind == DONE)
        print_bytes(text + strlen(text), digest, DIGEST);
    return is_untouched(image, o.length, sizeof image) && (o.kind == DONE || is_untouched(digest, 0, DIGEST));
}

static int load(const char *field)
{
    static uint8_t seal[LONGEST];
    size_t n, d;
    bytes_of(bytes_of(field, given, &n) + 1, seal, &d);
    print(plain_load(&plain, given, n, seal, d), given);
    return 1;
}

/* An event's line; 0 where it touched what its answer does not name. */
static int event(char letter, const char *field)
{
    wipe();
    switch (letter) {
    case 'c': return hand_in(call_entry, field);
    case 'r': return hand_in(plain_reply, field);
    case 's': return save(field);
    default: return load(field);
    }
}

int main(void)
{
    char *line = NULL;
    size_t room = 0, number = 0, answers = 0, lists = 0;
    for (ssize_t n; (n = getline(&line, &room, stdin)) > 0;) {
        number++;
        line[n - 1] = 0;
        if (line[0] == 'f' || line[0] == 'o') {
            lists++;
            plain_fresh(&plain);
            call_entry = line[0] == 'f' ? plain_call : plain_reader_call;
            answer_length = ANSWER, request_length = REQUEST;
        } else if (line[0] == 'b') {
            sscanf(line, "b %zu %zu", &answer_length, &request_length);
            if (answer_length > sizeof answer || request_length > sizeof request)
                return 2;
        } else if (line[0] == '=') {
            answers++;
            if (strcmp(text, line + 2)) {
                printf("line %zu: %.80s\nbut:  %.80s\n", number, line, text);
                return 1;
            }
        } else if (strchr("crsl", line[0]) && !event(line[0], line + 2)) {
            printf("line %zu: bytes behind the answer, or of the other buffer, are touched\n", number);
            return 1;
        }
    }
    free(line);
    printf("plain: %zu answers of %zu lists, each as stored\n", answers, lists);
    return 0;
}
