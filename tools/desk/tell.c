#include "tell.h"

#include "board.h"
#include "hunt.h"
#include "screen.h"
#include "show.h"
#include "words.h"

#include <stdio.h>
#include <string.h>

void tell_word(const struct teller *teller, const char *word, const char *words) {
    if (!teller->hex)
        screen_row(word, words, TONE_GOOD);
}

void tell_request(const struct teller *teller, const uint8_t *frame, size_t len) {
    char hex[3 * FRAME_MOST], words[WORDS_MOST];
    if (teller->hex)
        return;
    frame_hex(frame, len, hex);
    request_words(frame, words);
    screen_row(hex, words, TONE_PLAIN);
}

static void tell_bytes(const struct teller *teller, const uint8_t *bytes, size_t len, const char *words,
                       enum tone tone) {
    char hex[2 + 3 * BOARD_FRAME_SIZE] = "  ";
    hex_words(bytes, len, hex + 2);
    if (teller->hex)
        screen_line(hex + 2, TONE_PLAIN);
    else
        screen_row(hex, words, tone);
}

void tell_reply(const struct teller *teller, const uint8_t *reply, size_t len, const char *words) {
    tell_bytes(teller, reply, len, words, reply[AT_STATUS] == STATUS_DONE ? TONE_GOOD : TONE_BAD);
}

void numbers_words(const char *before, const uint8_t *sample, char *words) {
    strcpy(words, before);
    for (int i = 0; i < CHANNELS; i++) {
        char value[FIELD_WORDS_MOST];
        float_words(float_at(sample + FLOAT_SIZE * i), value);
        sprintf(words + strlen(words), "%s%s", i == 0 ? "" : ", ", value);
    }
}

void tell_sample(const struct teller *teller, const uint8_t *sample, const uint8_t *frame, size_t len) {
    char words[WORDS_MOST];
    numbers_words("a reading: ", sample, words);
    if (!teller->hex)
        screen_row("sample", words, TONE_PLAIN);
    if (len > 0) {
        numbers_words("measuring frame: ", frame + AT_DATA, words);
        tell_bytes(teller, frame, len, words, TONE_GOOD);
    } else if (!teller->hex)
        screen_row("  nothing is sent", "sending is off; AA 90 24 85 starts it", TONE_NOTE);
}

static const char *bytes_word(size_t count) { return count == 1 ? "byte" : "bytes"; }

static void skipped_words(const struct skipped *skipped, char *words) {
    words += sprintf(words, "%zu %s skipped: ", skipped->bytes, bytes_word(skipped->bytes));
    if (skipped->broken == 0)
        sprintf(words, "no frame starts there");
    else
        words += sprintf(words, "AA %02X announces %zu bytes, and the byte where 85 is due is another",
                         skipped->head, frame_size(skipped->head));
    if (skipped->broken > 1)
        sprintf(words, " (%zu such heads)", skipped->broken);
}

void tell_skipped(struct teller *teller) {
    char words[WORDS_MOST];
    skipped_words(&teller->skipped, words);
    if (teller->skipped.bytes > 0 && !teller->hex)
        screen_line(words, TONE_NOTE);
    teller->skipped_in_all += teller->skipped.bytes;
    teller->skipped = (struct skipped){0, 0, 0};
}

void tell_waiting(const struct teller *teller, const uint8_t *waiting, size_t len) {
    char words[WORDS_MOST];
    if (len == 0 || teller->hex)
        return;
    waiting_words(waiting, len, words);
    screen_line(words, TONE_NOTE);
}

void tell_end(const struct teller *teller, const uint8_t *waiting, size_t len) {
    char words[WORDS_MOST];
    fflush(stdout);
    if (!teller->hex)
        return;
    if (teller->skipped_in_all > 0)
        fprintf(stderr, "desk: %zu %s skipped\n", teller->skipped_in_all, bytes_word(teller->skipped_in_all));
    if (len == 0)
        return;
    waiting_words(waiting, len, words);
    fprintf(stderr, "desk: %s\n", words);
}
