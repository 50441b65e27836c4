/* Places a rig of five baselines, and prints each baseline's imagers. */
#include "tuvelanni.h"

#include <stdio.h>

enum { BASELINES = 5 };

/* A path 0-1-2, and two baselines 3-4 that share. */
static const uint8_t square[BASELINES * BASELINES] = {
    0, 1, 0, 0, 0,
    1, 0, 1, 0, 0,
    0, 1, 0, 0, 0,
    0, 0, 0, 0, 1,
    0, 0, 0, 1, 0,
};

int main(void) {
    uint8_t out[3 * BASELINES];
    uint64_t answer = tuvelanni_place_square(BASELINES, square, sizeof square, out, sizeof out);
    unsigned refusal = tuvelanni_refusal(answer);
    if (refusal != 0) {
        printf("refused: %u, detail %llu\n", refusal, (unsigned long long)tuvelanni_value(answer));
        return 1;
    }
    printf("%llu imagers\n", (unsigned long long)tuvelanni_value(answer));
    for (int i = 0; i < BASELINES; i++) {
        printf("baseline %d: imagers %u and %u, %s\n", i, out[3 * i], out[3 * i + 1], out[3 * i + 2] ? "doubtful" : "certain");
    }
    return 0;
}
