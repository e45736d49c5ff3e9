/* SHA-256, the best portable C found: rounds unrolled with the variables renamed instead of moved, a rolling window of
 * sixteen words, the short forms of Ch and Maj, whole words loaded and swapped. */
#include <stddef.h>
#include <stdint.h>
#include <string.h>

#define ROTR(x, n) (((x) >> (n)) | ((x) << (32 - (n))))
#define S1(e) (ROTR(ROTR(ROTR(e, 14) ^ e, 5) ^ e, 6))
#define S0(a) (ROTR(ROTR(ROTR(a, 9) ^ a, 11) ^ a, 2))
#define ROUND(a, b, c, d, e, f, g, h, k, w)          \
    do {                                             \
        uint32_t t = h + S1(e) + (((f ^ g) & e) ^ g) + (k) + (w); \
        uint32_t x = a ^ b;                          \
        d += t;                                      \
        h = t + S0(a) + ((x & y) ^ b);               \
        y = x;                                       \
    } while (0)
#define NEXT(i)                                                                                          \
    (w[(i) & 15] += (ROTR(w[((i) - 2) & 15], 17) ^ ROTR(w[((i) - 2) & 15], 19) ^ (w[((i) - 2) & 15] >> 10)) + \
                    w[((i) - 7) & 15] +                                                                  \
                    (ROTR(w[((i) - 15) & 15], 7) ^ ROTR(w[((i) - 15) & 15], 18) ^ (w[((i) - 15) & 15] >> 3)))
#define EIGHT(W, i, k0, k1, k2, k3, k4, k5, k6, k7)      \
    ROUND(a, b, c, d, e, f, g, h, k0, W((i) + 0));       \
    ROUND(h, a, b, c, d, e, f, g, k1, W((i) + 1));       \
    ROUND(g, h, a, b, c, d, e, f, k2, W((i) + 2));       \
    ROUND(f, g, h, a, b, c, d, e, k3, W((i) + 3));       \
    ROUND(e, f, g, h, a, b, c, d, k4, W((i) + 4));       \
    ROUND(d, e, f, g, h, a, b, c, k5, W((i) + 5));       \
    ROUND(c, d, e, f, g, h, a, b, k6, W((i) + 6));       \
    ROUND(b, c, d, e, f, g, h, a, k7, W((i) + 7))
#define FIRST(i) (w[i])

static void blocks(uint32_t s[8], const uint8_t *p, size_t n) {
    for (; n; n--, p += 64) {
        uint32_t w[16];
        for (int t = 0; t < 16; t++) {
            uint32_t x;
            memcpy(&x, p + 4 * t, 4);
            w[t] = __builtin_bswap32(x);
        }
        uint32_t a = s[0], b = s[1], c = s[2], d = s[3], e = s[4], f = s[5], g = s[6], h = s[7], y = b ^ c;
        EIGHT(FIRST, 0, 0x428a2f98, 0x71374491, 0xb5c0fbcf, 0xe9b5dba5, 0x3956c25b, 0x59f111f1, 0x923f82a4, 0xab1c5ed5);
        EIGHT(FIRST, 8, 0xd807aa98, 0x12835b01, 0x243185be, 0x550c7dc3, 0x72be5d74, 0x80deb1fe, 0x9bdc06a7, 0xc19bf174);
        EIGHT(NEXT, 16, 0xe49b69c1, 0xefbe4786, 0x0fc19dc6, 0x240ca1cc, 0x2de92c6f, 0x4a7484aa, 0x5cb0a9dc, 0x76f988da);
        EIGHT(NEXT, 24, 0x983e5152, 0xa831c66d, 0xb00327c8, 0xbf597fc7, 0xc6e00bf3, 0xd5a79147, 0x06ca6351, 0x14292967);
        EIGHT(NEXT, 32, 0x27b70a85, 0x2e1b2138, 0x4d2c6dfc, 0x53380d13, 0x650a7354, 0x766a0abb, 0x81c2c92e, 0x92722c85);
        EIGHT(NEXT, 40, 0xa2bfe8a1, 0xa81a664b, 0xc24b8b70, 0xc76c51a3, 0xd192e819, 0xd6990624, 0xf40e3585, 0x106aa070);
        EIGHT(NEXT, 48, 0x19a4c116, 0x1e376c08, 0x2748774c, 0x34b0bcb5, 0x391c0cb3, 0x4ed8aa4a, 0x5b9cca4f, 0x682e6ff3);
        EIGHT(NEXT, 56, 0x748f82ee, 0x78a5636f, 0x84c87814, 0x8cc70208, 0x90befffa, 0xa4506ceb, 0xbef9a3f7, 0xc67178f2);
        s[0] += a, s[1] += b, s[2] += c, s[3] += d, s[4] += e, s[5] += f, s[6] += g, s[7] += h;
    }
}

void best_sha256(const uint8_t *m, size_t n, uint8_t out[32]) {
    uint32_t s[8] = {0x6a09e667, 0xbb67ae85, 0x3c6ef372, 0xa54ff53a, 0x510e527f, 0x9b05688c, 0x1f83d9ab, 0x5be0cd19};
    blocks(s, m, n / 64);
    uint8_t t[128] = {0};
    size_t rest = n % 64, all = rest < 56 ? 64 : 128;
    if (rest)
        memcpy(t, m + (n - rest), rest);
    t[rest] = 0x80;
    uint64_t bits = __builtin_bswap64((uint64_t)n << 3);
    memcpy(t + all - 8, &bits, 8);
    blocks(s, t, all / 64);
    for (int j = 0; j < 8; j++) {
        uint32_t x = __builtin_bswap32(s[j]);
        memcpy(out + 4 * j, &x, 4);
    }
}
