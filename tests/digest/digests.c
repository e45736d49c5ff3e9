/* Writes one file for each length into the folder given, of deterministic content, and prints each file's digest by
 * guard_sha256 as sha256sum prints it. The message stands at a different alignment each time, and a byte on either side
 * of the digest must keep its value. */
#include <stdio.h>
#include <stdlib.h>
#include "../../include/guard.h"
#include "../../include/guard_sha256.h"

enum { LARGEST = 1000000 };

static const size_t longer[] = {
    GUARD_PAGE_LENGTH - 1, GUARD_PAGE_LENGTH, GUARD_PAGE_LENGTH + 1, GUARD_ANSWER_LENGTH, GUARD_IMAGE_LENGTH, 47114,
        LARGEST,
};
enum { SHORT = 301, LONG = sizeof longer / sizeof *longer };

static uint8_t buffer[LARGEST + 8];

static void fill(uint8_t *m, size_t n) {
    uint64_t x = 0x9e3779b97f4a7c15u ^ n;
    for (size_t i = 0; i < n; i++) {
        x ^= x << 13, x ^= x >> 7, x ^= x << 17;
        m[i] = (uint8_t)(x >> 32);
    }
}

int main(int argc, char **argv) {
    if (argc != 2)
        return 2;
    for (int i = 0; i < SHORT + LONG; i++) {
        size_t n = i < SHORT ? (size_t)i : longer[i - SHORT];
        uint8_t *m = buffer + n % 8, out[34] = {0xa5};
        char name[4096];
        out[33] = 0x5a;
        fill(m, n);
        snprintf(name, sizeof name, "%s/%07zu", argv[1], n);
        FILE *f = fopen(name, "wb");
        if (!f || fwrite(m, 1, n, f) != n || fclose(f))
            return 2;
        guard_sha256(n ? m : NULL, n, out + 1);
        if (out[0] != 0xa5 || out[33] != 0x5a) {
            fprintf(stderr, "%zu bytes: written outside the digest\n", n);
            return 1;
        }
        for (int j = 0; j < 32; j++)
            printf("%02x", out[1 + j]);
        printf("  %07zu\n", n);
    }
    return 0;
}
