#include "content.h"

#include <string.h>

bool is_text(unsigned char byte, unsigned *due) {
    if (*due > 0) {
        (*due)--;
        return (byte & 0xC0) == 0x80;
    }
    if (byte < 0x80)
        return (byte >= ' ' && byte < 0x7F) || byte == '\t' || byte == '\r' || byte == '\n';
    *due = byte < 0xE0 ? 1 : byte < 0xF0 ? 2 : 3;
    return byte >= 0xC2 && byte < 0xF5;
}

static bool is_all_text(struct line text) {
    unsigned due = 0;
    for (size_t i = 0; i < text.len; i++) {
        if (!is_text((unsigned char)text.text[i], &due))
            return false;
    }
    return due == 0;
}

struct line first_line(struct line text) {
    const char *end = text.len == 0 ? NULL : memchr(text.text, '\n', text.len);
    return (struct line){text.text, end == NULL ? text.len : (size_t)(end - text.text)};
}

enum content content_of(struct line text, uint8_t *bytes) {
    enum content content = CONTENT_NONE;
    for (size_t at = 0; at < text.len;) {
        const struct line line = first_line((struct line){text.text + at, text.len - at});
        struct line_fault fault;
        size_t count;
        if (!line_bytes(line, bytes, &count, &fault))
            return CONTENT_FAULT;
        if (count > 0)
            content = CONTENT_HEX;
        at += line.len + 1;
    }
    return content;
}

bool is_raw(struct line text, enum content content) { return content != CONTENT_HEX && !is_all_text(text); }
