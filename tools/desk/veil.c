#include "veil.h"

#include "words.h"

#include <stdio.h>

/* A head among the bytes of a code may start another one. */
bool veil_hides(struct veil *veil, uint8_t byte) {
    const bool hides = veil->left > 0;
    const bool due = takes_code(KIND_OF(veil->last), byte) && (!veil->framed || veil->before == FRAME_START);
    if (hides)
        veil->left--;
    if (due && veil->left < COUNT_OF(veil->last))
        veil->left = COUNT_OF(veil->last);
    veil->before = veil->last;
    veil->last = byte;
    return hides;
}

size_t veil_hex(struct veil *veil, const uint8_t *bytes, size_t len, char *hex) {
    size_t hidden = 0;
    *hex = '\0';
    for (size_t i = 0; i < len; i++) {
        const char *before = i == 0 ? "" : " ";
        const bool hides = veil_hides(veil, bytes[i]);
        hex += hides ? sprintf(hex, "%s..", before) : sprintf(hex, "%s%02X", before, bytes[i]);
        hidden += hides;
    }
    return hidden;
}

/* The end of a frame is no secret, and it may stand between two bytes of a code. */
void veil_frame(const uint8_t *frame, size_t len, struct veiled *veiled) {
    struct veil veil = {.framed = true};
    veiled->hidden = veil_hex(&veil, frame, len - 1, veiled->hex);
    veiled->left = veil.left;
    sprintf(veiled->hex + 3 * (len - 1) - 1, " %02X", frame[len - 1]);
}
