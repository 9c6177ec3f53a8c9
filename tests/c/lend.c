#include "lend.h"

#include <string.h>

const uint8_t guards[TURNS][PROGRAMS] = {{0xAA, 0x85}, {0xFF, 0x00}, {0x85, 0xAA}, {0x00, 0xFF}};

uint8_t *lend(uint8_t *buffer, const uint8_t *bytes, size_t len, uint8_t guard) {
    memset(buffer, guard, GUARD);
    if (bytes == NULL)
        memset(buffer + GUARD, FILLING, len);
    else
        memcpy(buffer + GUARD, bytes, len);
    memset(buffer + GUARD + len, guard, GUARD);
    return buffer + GUARD;
}

bool guarded(const uint8_t *buffer, size_t len, uint8_t guard) {
    for (size_t i = 0; i < GUARD; i++) {
        if (buffer[i] != guard || buffer[GUARD + len + i] != guard)
            return false;
    }
    return true;
}
