/* Reads cases from standard input and writes what the C entry answers to each: n, the square's length, the output's length
   (eight bytes each, little end first), the square's bytes; then the answer (eight bytes) and the output's bytes, which are
   0xEE before the call. Each buffer is allocated to its length, so that valgrind sees a byte past it. */
#include <stdio.h>
#include <stdlib.h>
#include <string.h>
#include "../../include/tuvelanni.h"

int main(void) {
    uint64_t head[3];
    while (fread(head, sizeof head, 1, stdin) == 1) {
        uint8_t *square = malloc(head[1] ? head[1] : 1);
        uint8_t *out = malloc(head[2] ? head[2] : 1);
        if (!square || !out || fread(square, 1, head[1], stdin) != head[1]) return 1;
        memset(out, 0xEE, head[2]);
        uint64_t answer = tuvelanni_place_square(head[0], square, head[1], out, head[2]);
        fwrite(&answer, sizeof answer, 1, stdout);
        fwrite(out, 1, head[2], stdout);
        free(square);
        free(out);
    }
    return 0;
}
