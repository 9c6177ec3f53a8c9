#include "said.h"

#include "answer.h"
#include "hunt.h"
#include "tell.h"

#include <stdio.h>
#include <string.h>

/* How much of the data is text: two bytes or more that print, and nothing but zeros behind them. */
static size_t text_len(const uint8_t *data, size_t len) {
    size_t text = 0;
    while (text < len && data[text] >= ' ' && data[text] <= '~')
        text++;
    for (size_t i = text; i < len; i++) {
        if (data[i] != 0)
            return 0;
    }
    return text < 2 ? 0 : text;
}

static bool is_long(struct stretch frame) {
    const uint8_t head = frame.bytes[AT_HEAD];
    return kind_answered(head) != 0 && COUNT_OF(head) == LONG_FEWEST;
}

uint8_t said_status(struct stretch frame) { return is_long(frame) ? STATUS_DONE : frame.bytes[AT_STATUS]; }

static size_t reply_kind(struct stretch frame, char *words) {
    const char *kind = kind_words(kind_answered(frame.bytes[AT_HEAD]));
    if (!is_long(frame))
        return (size_t)sprintf(words, "%s reply, ", kind);
    return (size_t)sprintf(words, "long %s reply, %zu bytes of data, ", kind, frame.len - FRAME_AROUND);
}

/* Text as text too, which no data with a code are; the hex of a long reply is left to its frame. */
static void data_words(struct stretch frame, const struct veiled *veiled, char *words) {
    const uint8_t *data = frame.bytes + AT_DATA;
    const size_t count = frame.len - FRAME_AROUND, text = text_len(data, count);
    *words = '\0';
    if (count > 0 && !is_long(frame))
        words += sprintf(words, ", data %.*s", (int)(3 * count - 1), veiled->hex + 3 * AT_DATA);
    if (text > 0)
        quoted_words(data, text, words + sprintf(words, ", "));
}

static void said_reply_words(struct stretch frame, const struct veiled *veiled, const uint8_t *command,
                             char *words) {
    words += reply_kind(frame, words);
    if (command != NULL && veiled->hidden == 0 && answer_words(command, frame.bytes, frame.len, words))
        return;
    status_words(said_status(frame), words);
    data_words(frame, veiled, words + strlen(words));
}

void said_words(struct stretch frame, const struct veiled *veiled, const uint8_t *command, char *words) {
    words += sprintf(words, "byte %zu, ", frame.place);
    if (frame.bytes[AT_HEAD] != MEASURING)
        said_reply_words(frame, veiled, command, words);
    else if (veiled->hidden > 0)
        strcpy(words, "measuring frame, and a code may stand in it");
    else
        numbers_words("measuring frame: ", frame.bytes + AT_DATA, words);
}

/* What a head announces, and the bytes that it takes. */
static size_t announced(struct stretch front, char *words) {
    const uint8_t head = front.bytes[AT_HEAD];
    const size_t said = said_size(front.bytes, front.len), size = said > 0 ? said : frame_size(head);
    const char *what = head == MEASURING ? "measuring frame" : said > 0 ? "reply" : "command";
    char hex[3 * AT_DATA];
    hex_words(front.bytes, head == MEASURING || (said > 0 && is_long(front)) ? AT_DATA : AT_STATUS, hex);
    sprintf(words, "%s announces a %s of %zu bytes", hex, what, size);
    return size;
}

static void due_words(size_t due, char *words) {
    sprintf(words, "; %zu more %s due", due, due == 1 ? "is" : "are");
}

void why_words(struct stretch front, enum why why, char *words) {
    const size_t size = announced(front, words);
    words += strlen(words);
    if (why == WHY_BROKEN)
        strcpy(words, ", and the byte where 85 is due is another");
    else if (why == WHY_GOES_ON)
        strcpy(words, "; what follows may be part of it");
    else
        due_words(size - front.len, words);
}

void unread_words(struct stretch unread, char *words) {
    if (unread.len <= AT_HEAD)
        strcpy(words, "a head is due");
    else if (said_size(unread.bytes, unread.len) == 0)
        strcpy(words, "a third byte is due");
    else
        why_words(unread, WHY_ENDS, words);
}
