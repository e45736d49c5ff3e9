/* Times SHA-256 on 1,024 and 44,776 bytes: each round times every implementation once, one after the other, and the
 * least time of each is printed with its ratio to plain C at -O2. OpenSSL reads OPENSSL_ia32cap as it starts, so each
 * of its two settings runs in a process of its own that waits for its turn. */
#define _GNU_SOURCE
#include <fcntl.h>
#include <stdio.h>
#include <stdlib.h>
#include <string.h>
#include <sys/wait.h>
#include <time.h>
#include <unistd.h>
#include "../include/guard.h"
#include "../include/guard_sha256.h"

void plain_o2(const uint8_t *, size_t, uint8_t *);
void plain_o3(const uint8_t *, size_t, uint8_t *);
void best_sha256(const uint8_t *, size_t, uint8_t *);
unsigned char *SHA256(const unsigned char *, size_t, unsigned char *);

static void openssl(const uint8_t *m, size_t n, uint8_t *out) { SHA256(m, n, out); }

enum { ROUNDS = 60, LENGTHS = 2, KINDS = 6 };
static const size_t lengths[LENGTHS] = {GUARD_PAGE_LENGTH, GUARD_IMAGE_LENGTH};
static const char *const names[KINDS] = {"guard_sha256", "plain C, gcc -O2", "plain C, gcc -O3", "best C, gcc -O3",
                                         "OpenSSL, no SHA instructions", "OpenSSL, SHA instructions"};
static uint8_t message[GUARD_IMAGE_LENGTH];

static double once(void (*f)(const uint8_t *, size_t, uint8_t *), size_t n, uint8_t *out) {
    int times = (int)(2000000 / n);
    struct timespec a, b;
    clock_gettime(CLOCK_MONOTONIC, &a);
    for (int i = 0; i < times; i++)
        f(message, n, out);
    clock_gettime(CLOCK_MONOTONIC, &b);
    return ((double)(b.tv_sec - a.tv_sec) * 1e9 + (double)(b.tv_nsec - a.tv_nsec)) / times;
}

struct answer { double ns; uint8_t digest[32]; };
struct worker { int to, from; pid_t id; };

/* A worker ends when its input does, so no other process may hold the writing end: every end closes at exec but the
 * worker's own two, which dup2 made. */
static struct worker start(const char *cap) {
    int in[2], out[2];
    if (pipe2(in, O_CLOEXEC) || pipe2(out, O_CLOEXEC))
        exit(2);
    pid_t id = fork();
    if (id < 0)
        exit(2);
    if (id == 0) {
        dup2(in[0], 0);
        dup2(out[1], 1);
        if (cap)
            setenv("OPENSSL_ia32cap", cap, 1);
        else
            unsetenv("OPENSSL_ia32cap");
        execl("/proc/self/exe", "digest", "worker", (char *)0);
        _exit(2);
    }
    close(in[0]);
    close(out[1]);
    return (struct worker){in[1], out[0], id};
}

static void end(struct worker w) {
    close(w.to);
    close(w.from);
    waitpid(w.id, NULL, 0);
}

static struct answer ask(struct worker w, int which) {
    struct answer a;
    if (write(w.to, &which, sizeof which) != sizeof which || read(w.from, &a, sizeof a) != sizeof a)
        exit(2);
    return a;
}

static int serve(void) {
    int which;
    struct answer a;
    while (read(0, &which, sizeof which) == sizeof which) {
        a.ns = once(openssl, lengths[which], a.digest);
        if (write(1, &a, sizeof a) != sizeof a)
            return 2;
    }
    return 0;
}

int main(int argc, char **argv) {
    for (size_t i = 0; i < sizeof message; i++)
        message[i] = (uint8_t)(i * 2654435761u >> 13);
    if (argc > 1)
        return serve();
    struct worker without = start(":~0x20000000"), with = start(NULL);
    void (*const here[4])(const uint8_t *, size_t, uint8_t *) = {guard_sha256, plain_o2, plain_o3, best_sha256};
    for (int l = 0; l < LENGTHS; l++) {
        double least[KINDS];
        for (int r = 0; r < ROUNDS; r++) {
            struct answer a[KINDS];
            for (int k = 0; k < 4; k++)
                a[k].ns = once(here[k], lengths[l], a[k].digest);
            a[4] = ask(without, l);
            a[5] = ask(with, l);
            for (int k = 0; k < KINDS; k++) {
                if (memcmp(a[k].digest, a[0].digest, 32)) {
                    printf("%s: another digest\n", names[k]);
                    return 1;
                }
                if (r == 0 || a[k].ns < least[k])
                    least[k] = a[k].ns;
            }
        }
        printf("%zu bytes\n", lengths[l]);
        for (int k = 0; k < KINDS; k++)
            printf("  %-30s %9.0f ns  %5.2f\n", names[k], least[k], least[k] / least[1]);
    }
    end(without);
    end(with);
    return 0;
}
