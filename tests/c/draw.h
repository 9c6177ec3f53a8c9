/* Seeded random numbers, the same on every machine. */
#ifndef DRAW_H
#define DRAW_H

#include <stddef.h>
#include <stdint.h>

struct draw {
    uint64_t state;
};

struct draw draw_from(uint64_t seed);

/* A number from 0 to limit - 1. */
uint32_t draw_below(struct draw *draw, uint32_t limit);

uint8_t draw_byte(struct draw *draw);

/* One of the bytes. */
uint8_t draw_one(struct draw *draw, const uint8_t *bytes, uint32_t len);

void draw_bytes(struct draw *draw, uint8_t *bytes, size_t len);

#endif
