#include "records.h"

#include <stdlib.h>
#include <string.h>

enum { HEAD = 3, MOST = 300 };

size_t record_read(const uint8_t *data, size_t n, struct record *r)
{
    if (n < HEAD)
        return 0;
    size_t length = data[1] + 256u * data[2];
    r->what = (enum what)(data[0] % 16 % WHATS);
    r->short_answer = data[0] >> 6 & 1;
    r->short_request = data[0] >> 7;
    r->bytes = data + HEAD;
    r->length = length < n - HEAD ? length : n - HEAD;
    return HEAD + r->length;
}

/* ---- a mutator that knows records: lengths stay right where bytes come and go */

size_t LLVMFuzzerMutate(uint8_t *data, size_t size, size_t most);
size_t LLVMFuzzerCustomMutator(uint8_t *data, size_t size, size_t most, unsigned seed);

static size_t starts[MOST + 1]; /* where records begin, and where the last one ends */

static size_t find_records(const uint8_t *data, size_t size)
{
    struct record r;
    size_t count = 0, took;
    starts[0] = 0;
    while (count < MOST && (took = record_read(data + starts[count], size - starts[count], &r))) {
        starts[count + 1] = starts[count] + took;
        count++;
    }
    return count;
}

/* Puts n bytes in place of those from `from` up to `to`; the new size. */
static size_t put_over(uint8_t *data, size_t size, size_t from, size_t to, const uint8_t *bytes, size_t n)
{
    memmove(data + from + n, data + to, size - to);
    memcpy(data + from, bytes, n);
    return size - (to - from) + n;
}

/* Other bytes in one record. */
static size_t mutate_bytes(uint8_t *data, size_t size, size_t most, size_t at, size_t end)
{
    size_t n = end - at - HEAD, room = n + (most - size);
    room = room < 65535 ? room : 65535;
    uint8_t *copy = malloc(HEAD + room + 1);
    memcpy(copy, data + at, HEAD + n);
    n = room ? LLVMFuzzerMutate(copy + HEAD, n, room) : 0;
    copy[1] = (uint8_t)n;
    copy[2] = (uint8_t)(n / 256);
    size = put_over(data, size, at, end, copy, HEAD + n);
    free(copy);
    return size;
}

/* A copy of one record before another. */
static size_t copy_record(uint8_t *data, size_t size, size_t most, size_t at, size_t end, size_t to)
{
    size_t n = end - at;
    if (size + n > most)
        return size;
    uint8_t *copy = malloc(n);
    memcpy(copy, data + at, n);
    size = put_over(data, size, to, to, copy, n);
    free(copy);
    return size;
}

static size_t mutate_records(uint8_t *data, size_t size, size_t most, unsigned seed)
{
    size_t count = find_records(data, size);
    if (!count)
        return LLVMFuzzerMutate(data, size, most);
    size_t i = seed / 16 % count, at = starts[i], end = starts[i + 1];
    switch (seed % 5) {
    case 0: return put_over(data, size, at, end, data, 0);
    case 1: return copy_record(data, size, most, at, end, starts[seed / 1024 % (count + 1)]);
    case 2: data[at] = (uint8_t)(seed / 1024 % WHATS | (seed % 7 ? 0 : seed / 8192 % 4 << 6)); return size;
    default: return mutate_bytes(data, size, most, at, end);
    }
}

/* The first byte is no record's. */
size_t LLVMFuzzerCustomMutator(uint8_t *data, size_t size, size_t most, unsigned seed)
{
    if (size < 2 || seed % 16 == 0)
        return LLVMFuzzerMutate(data, size, most);
    return 1 + mutate_records(data + 1, size - 1, most - 1, seed);
}
