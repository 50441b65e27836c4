/* The unproved C program that the bench compares with. */
#ifndef PLAIN_H
#define PLAIN_H

#include <stddef.h>
#include <stdint.h>

uint64_t plain_place_square(uint64_t n, const uint8_t *square, size_t square_len, uint8_t *out, size_t out_len);

#endif
