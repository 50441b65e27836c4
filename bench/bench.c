/* Times the proved entry beside the plain C program, on the same squares in one run, and prints ratios. */
#include "../include/tuvelanni.h"
#include "plain.h"

#include <stdio.h>
#include <stdlib.h>
#include <string.h>
#include <time.h>

typedef uint64_t (*Entry)(uint64_t, const uint8_t *, size_t, uint8_t *, size_t);

static uint64_t state = 88172645463325252u;

static unsigned below(unsigned bound) {
    state ^= state << 13;
    state ^= state >> 7;
    state ^= state << 17;
    return (unsigned)((state >> 33) % bound);
}

static double now(void) {
    struct timespec t;
    clock_gettime(CLOCK_MONOTONIC, &t);
    return (double)t.tv_sec * 1e9 + (double)t.tv_nsec;
}

/* The square of a drawing of n baselines, two imagers to a baseline. */
static void square_of(const unsigned (*ends)[2], unsigned n, uint8_t *square) {
    for (unsigned i = 0; i < n; i++)
        for (unsigned j = 0; j < n; j++) {
            int same = (ends[i][0] == ends[j][0]) + (ends[i][0] == ends[j][1]) + (ends[i][1] == ends[j][0]) + (ends[i][1] == ends[j][1]);
            square[i * n + j] = i != j && same == 1;
        }
}

static void random_root(unsigned vertices, unsigned n, unsigned (*ends)[2]) {
    for (unsigned k = 0; k < n;) {
        unsigned a = below(vertices), b = below(vertices), fresh = a != b;
        for (unsigned i = 0; i < k && fresh; i++)
            fresh = !((ends[i][0] == a && ends[i][1] == b) || (ends[i][0] == b && ends[i][1] == a));
        if (fresh) {
            ends[k][0] = a;
            ends[k][1] = b;
            k++;
        }
    }
}

/* The best of some batches, in nanoseconds a call. */
static double timed(Entry entry, unsigned n, const uint8_t *square, uint8_t *out) {
    double best = 1e18;
    for (int batch = 0; batch < 15; batch++) {
        int calls = 400;
        double from = now();
        for (int i = 0; i < calls; i++) entry(n, square, (size_t)n * n, out, 3 * (size_t)n);
        double each = (now() - from) / calls;
        if (each < best) best = each;
    }
    return best;
}

static void compare(const char *name, const unsigned (*ends)[2], unsigned n) {
    static uint8_t square[64 * 64];
    uint8_t ours[192], theirs[192];
    square_of(ends, n, square);
    memset(ours, 0, sizeof ours);
    memset(theirs, 0, sizeof theirs);
    uint64_t a = tuvelanni_place_square(n, square, (size_t)n * n, ours, 3 * (size_t)n);
    uint64_t b = plain_place_square(n, square, (size_t)n * n, theirs, 3 * (size_t)n);
    if (a != b || memcmp(ours, theirs, sizeof ours) != 0) {
        printf("%s: the answers differ\n", name);
        exit(1);
    }
    double proved = timed(tuvelanni_place_square, n, square, ours);
    double plain = timed(plain_place_square, n, square, theirs);
    printf("%-28s %3u %10.0f %10.0f %7.2f\n", name, n, proved, plain, proved / plain);
}

int main(void) {
    unsigned ends[64][2];
    printf("%-28s %3s %10s %10s %7s\n", "rig", "n", "proved ns", "plain ns", "ratio");
    for (unsigned n = 8; n <= 64; n *= 2) {
        for (unsigned i = 0; i < n; i++) ends[i][0] = i, ends[i][1] = i + 1;
        compare("path", (const unsigned(*)[2])ends, n);
        for (unsigned i = 0; i < n; i++) ends[i][0] = 0, ends[i][1] = i + 1;
        compare("star", (const unsigned(*)[2])ends, n);
        for (unsigned i = 0; i < n; i++) ends[i][0] = 2 * i, ends[i][1] = 2 * i + 1;
        compare("lone", (const unsigned(*)[2])ends, n);
    }
    random_root(12, 64, ends);
    compare("random root of 12 vertices", (const unsigned(*)[2])ends, 64);
    random_root(20, 64, ends);
    compare("random root of 20 vertices", (const unsigned(*)[2])ends, 64);
    random_root(40, 64, ends);
    compare("random root of 40 vertices", (const unsigned(*)[2])ends, 64);
    return 0;
}
