#include "draw.h"

/* A zero state would stay zero, so the seed is moved away from it. */
struct draw draw_from(uint64_t seed) {
    return (struct draw){seed * 0x9E3779B97F4A7C15u | 1u};
}

uint32_t draw_below(struct draw *draw, uint32_t limit) {
    draw->state ^= draw->state >> 12;
    draw->state ^= draw->state << 25;
    draw->state ^= draw->state >> 27;
    return (uint32_t)((draw->state * 0x2545F4914F6CDD1Du >> 32) * limit >> 32);
}

uint8_t draw_byte(struct draw *draw) { return (uint8_t)draw_below(draw, 256); }

uint8_t draw_one(struct draw *draw, const uint8_t *bytes, uint32_t len) {
    return bytes[draw_below(draw, len)];
}

void draw_bytes(struct draw *draw, uint8_t *bytes, size_t len) {
    for (size_t i = 0; i < len; i++)
        bytes[i] = draw_byte(draw);
}
