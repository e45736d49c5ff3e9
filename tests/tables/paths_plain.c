/* Straightforward C on the guard's rows, for comparison. */
#include <string.h>
#include "entries.h"

static uint64_t number(const uint8_t *b)
{
    uint64_t x;
    memcpy(&x, b, 8);
    return x;
}

static size_t child(const uint8_t *m, size_t n, uint64_t parent, const uint8_t *name, size_t length)
{
    for (size_t i = 0; i < n; i++) {
        const uint8_t *row = m + NODES_AT + i * WIDTH;
        if (number(row + 8) == parent && row[22] == length && memcmp(row + 23, name, length) == 0)
            return i;
    }
    return n;
}

uint64_t plain_walk(const uint8_t *m, size_t length, size_t n, const uint8_t *path, size_t path_length)
{
    size_t d = 0, at = 1;
    (void)length;
    if (path_length < 2)
        return 0;
    for (;;) {
        const uint8_t *row = m + NODES_AT + d * WIDTH;
        size_t end = at;
        if (row[16] != 2)
            return 1020;
        if (!(row[17] & 1))
            return 1013;
        while (end < path_length && path[end] != '/')
            end++;
        d = child(m, n, number(row), path + at, end - at);
        if (d == n)
            return 1002;
        if (end == path_length)
            return d;
        at = end + 1;
    }
}

uint64_t plain_form(const uint8_t *path, size_t length)
{
    size_t at = 1;
    int is_long = length > GUARD_PATH_LENGTH;
    if (length == 0 || path[0] != '/')
        return 22;
    if (length == 1)
        return 0;
    for (;;) {
        size_t end = at, n;
        while (end < length && path[end] != '/' && path[end] != 0)
            end++;
        n = end - at;
        if (end < length && path[end] == 0)
            return 22;
        if (n == 0 || (n == 1 && path[at] == '.') || (n == 2 && path[at] == '.' && path[at + 1] == '.'))
            return 22;
        if (n > GUARD_NAME_LENGTH)
            is_long = 1;
        if (end == length)
            return is_long ? 36 : 0;
        at = end + 1;
    }
}

int plain_covers(unsigned mode, unsigned rights)
{
    if (mode > 7 || rights < 1 || rights > 3)
        return -1;
    return (!(rights & 1) || (mode & 4)) && (!(rights & 2) || (mode & 2));
}
