#include "trace.h"

static void put_hex(FILE *to, const uint8_t *bytes, size_t length)
{
    for (size_t i = 0; i < length; i++)
        fprintf(to, "%02x", bytes[i]);
}

void trace_fresh(FILE *to)
{
    if (to)
        fputs("f\n", to);
}

void trace_fresh_reader(FILE *to)
{
    if (to)
        fputs("o\n", to);
}

void trace_event(FILE *to, char letter, const uint8_t *bytes, size_t length)
{
    if (!to)
        return;
    fprintf(to, "%c ", letter);
    put_hex(to, bytes, length);
    putc('\n', to);
}

/* Up to its last byte, so that a program that ends here has told it. */
static void put_outcome(FILE *to, guard_outcome o, const uint8_t *bytes, const uint8_t *digest)
{
    fprintf(to, "= %s", guard_outcome_name(o.kind));
    if (o.kind != GUARD_ASK)
        fprintf(to, " %llu", (unsigned long long)o.number);
    if (o.length > 0)
        putc(' ', to);
    put_hex(to, bytes, o.length);
    if (digest && o.kind == GUARD_DONE) {
        putc(' ', to);
        put_hex(to, digest, GUARD_DIGEST_LENGTH);
    }
    putc('\n', to);
    fflush(to);
}

void trace_outcome(FILE *to, guard_outcome o, const uint8_t *bytes)
{
    if (to)
        put_outcome(to, o, bytes, NULL);
}

void trace_save(FILE *to, guard_outcome o, const uint8_t *image, const uint8_t *digest)
{
    if (!to)
        return;
    fprintf(to, "s %d\n", (int)GUARD_IMAGE_LENGTH);
    put_outcome(to, o, image, digest);
}

void trace_load(FILE *to, const uint8_t *image, size_t length, const uint8_t *digest, size_t n, guard_outcome o)
{
    if (!to)
        return;
    fputs("l ", to);
    put_hex(to, image, length);
    putc(' ', to);
    put_hex(to, digest, n);
    putc('\n', to);
    put_outcome(to, o, NULL, NULL);
}
