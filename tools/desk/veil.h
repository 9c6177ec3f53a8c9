/* Which bytes are a code, so that nobody reads them. */
#ifndef VEIL_H
#define VEIL_H

#include "commands.h"

/* Behind a head and the number of a code stand so many bytes of it, also if the frame is not whole. */
struct veil {
    bool framed; /* only with an AA before the head, as data may hold such a pair of bytes */
    uint8_t before, last;
    size_t left; /* so many of the next bytes are a code */
};

/* Whether the next byte is one of a code. */
bool veil_hides(struct veil *veil, uint8_t byte);

/* Bytes with spaces between, those of a code as dots. Returns how many these are. */
size_t veil_hex(struct veil *veil, const uint8_t *bytes, size_t len, char *hex);

/* A whole frame: how many of its bytes are a code, and how many behind it may go on with one. */
struct veiled {
    size_t hidden, left;
    char hex[3 * SAID_MOST];
};

void veil_frame(const uint8_t *frame, size_t len, struct veiled *veiled);

#endif
