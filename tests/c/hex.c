#include "hex.h"

#include <ctype.h>
#include <stdio.h>
#include <string.h>

static bool digit(char c, unsigned *value) {
    static const char digits[] = "0123456789ABCDEF";
    const char *found = c == '\0' ? NULL : strchr(digits, toupper((unsigned char)c));
    if (found == NULL)
        return false;
    *value = (unsigned)(found - digits);
    return true;
}

bool hex_read(const char *text, uint8_t *bytes, size_t room, size_t *len) {
    *len = 0;
    for (; *text != '\0'; text++) {
        unsigned high, low;
        if (isspace((unsigned char)*text))
            continue;
        if (*len == room || !digit(text[0], &high) || !digit(text[1], &low))
            return false;
        bytes[(*len)++] = (uint8_t)(high << 4 | low);
        text++;
    }
    return true;
}

void hex_print(const uint8_t *bytes, size_t len, const char *between) {
    for (size_t i = 0; i < len; i++)
        printf("%s%02X", i == 0 ? "" : between, bytes[i]);
}
