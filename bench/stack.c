/* Measures how much stack one call of the entry uses: paints the stack below, calls, and looks how far the paint is gone. */
#include "../include/tuvelanni.h"

#include <stdio.h>
#include <string.h>

enum { DEPTH = 1 << 18, PAINT = 0xa5 };

static uint8_t square[64 * 64], out[192];

static __attribute__((noinline)) void paint(void) {
    volatile uint8_t area[DEPTH];
    for (size_t i = 0; i < DEPTH; i++) area[i] = PAINT;
}

static __attribute__((noinline)) size_t used(void) {
    volatile uint8_t area[DEPTH];
    size_t i = 0;
    while (i < DEPTH && area[i] == PAINT) i++;
    return DEPTH - i;
}

static __attribute__((noinline)) uint64_t call(void) { return tuvelanni_place_square(64, square, sizeof square, out, sizeof out); }

int main(void) {
    for (int i = 0; i < 64; i++)
        for (int j = 0; j < 64; j++) square[i * 64 + j] = i - j == 1 || j - i == 1;
    paint();
    uint64_t answer = call();
    printf("%zu bytes of stack, answer %llu\n", used(), (unsigned long long)answer);
    return 0;
}
