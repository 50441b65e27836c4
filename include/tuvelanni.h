/* Tuvelanni: imager layouts from shared baselines. The C entry. docs/c-host.md tells how to link it. */
#ifndef TUVELANNI_H
#define TUVELANNI_H

#include <stddef.h>
#include <stdint.h>

#ifdef __cplusplus
extern "C" {
#endif

/* The refusals that the entry gives. docs/refusals.md tells the question behind each. */
enum {
    TUVELANNI_MANY_BASELINES = 6, /* n is above 64 */
    TUVELANNI_SQUARE_SIZE = 7,    /* square_len is not n * n */
    TUVELANNI_SQUARE_BYTE = 8,    /* a byte is not 0 or 1, not zero on the diagonal, or not equal to its mirror; detail: its place */
    TUVELANNI_NO_LAYOUT = 18,     /* no layout exists; detail: the lowest baseline whose cluster has none */
    TUVELANNI_NO_ROOM = 19        /* out_len is below 3 * n; detail: 3 * n */
};

/*
 * Places n baselines (at most 64).
 *
 * square: n rows of n bytes; the byte at row i and column j is 1 where baselines i and j have an imager in common, else 0.
 * out:    three bytes for each baseline: its lower imager, its higher imager, and 1 if it is doubtful, else 0.
 *
 * Answers 256 * (number of imagers), with the first 3 * n bytes of out written and those past them untouched;
 * or (refusal number) + 256 * (detail), with out untouched. Take an answer apart with the two functions below.
 *
 * square may be a null pointer where square_len is 0, and out where out_len is 0. The two must not overlap.
 */
uint64_t tuvelanni_place_square(uint64_t n, const uint8_t *square, size_t square_len, uint8_t *out, size_t out_len);

/* The refusal number of an answer, or 0 where it is none. */
static inline unsigned tuvelanni_refusal(uint64_t answer) { return (unsigned)(answer % 256); }

/* The detail of a refusal; of an answer that is none, the number of imagers. */
static inline uint64_t tuvelanni_value(uint64_t answer) { return answer / 256; }

#ifdef __cplusplus
}
#endif

#endif
