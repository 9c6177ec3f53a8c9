/* Bytes as hex text. */
#ifndef HEX_H
#define HEX_H

#include <stdbool.h>
#include <stddef.h>
#include <stdint.h>

/* Reads pairs of hex digits, with or without space between; false if the text is not that or too long. */
bool hex_read(const char *text, uint8_t *bytes, size_t room, size_t *len);

/* Prints the bytes on standard output, with the text between any two. */
void hex_print(const uint8_t *bytes, size_t len, const char *between);

#endif
