/* Whether a capture is hex text or raw bytes. */
#ifndef CONTENT_H
#define CONTENT_H

#include "line.h"

/* Whether a byte may stand in a text in UTF-8; *due counts the bytes that its character still wants. */
bool is_text(unsigned char byte, unsigned *due);

/* The first line, without its end. */
struct line first_line(struct line text);

/* What lines say: bytes in hex, or nothing; or one of them is at fault. */
enum content { CONTENT_NONE, CONTENT_HEX, CONTENT_FAULT };

/* There is room for half as many bytes as characters. */
enum content content_of(struct line text, uint8_t *bytes);

/* Raw bytes can look like a remark, and a remark can be in another encoding: hex decides, then text. */
bool is_raw(struct line text, enum content content);

#endif
