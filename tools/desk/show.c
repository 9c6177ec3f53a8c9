#include "show.h"

#include "board.h"
#include "hunt.h"
#include "screen.h"
#include "words.h"

#include <stdio.h>
#include <string.h>

static void row(const char *name, const char *words) { screen_row(name, words, TONE_PLAIN); }

static void setting(const uint8_t *record, size_t at, const struct field *field) {
    char words[FIELD_WORDS_MOST];
    field_words(field, record + at, field->most, words);
    row(field->name, words);
}

void waiting_words(const uint8_t *waiting, size_t len, char *words) {
    const char *verb = len == 1 ? "byte waits" : "bytes wait";
    if (len <= AT_HEAD)
        sprintf(words, "%zu %s for a head", len, verb);
    else
        sprintf(words, "%zu %s for %zu more", len, verb, frame_size(waiting[AT_HEAD]) - len);
}

static void show_state(const uint8_t *record, bool code) {
    const uint8_t flags = record[BOARD_AT_FLAGS];
    char words[WORDS_MOST], hex[3 * BOARD_CODE_SIZE], text[FIELD_WORDS_MOST];
    row("configuration mode", flags & BOARD_FLAG_OPEN ? "open" : "closed");
    row("lock", flags & BOARD_FLAG_UNLOCKED ? "unlocked" : "locked");
    row("sending", flags & BOARD_FLAG_SENDING ? "on" : "off");
    sprintf(words, "%d of %d", record[BOARD_AT_TRIES], TRIES_MOST);
    row("wrong tries used", words);
    if (!code) {
        row("code", "hidden; 'show code' shows it");
        return;
    }
    hex_words(record + BOARD_AT_CODE, BOARD_CODE_SIZE, hex);
    quoted_words(record + BOARD_AT_CODE, BOARD_CODE_SIZE, text);
    sprintf(words, "%s, %s", hex, text);
    row("code", words);
}

static void show_inputs(const uint8_t *record) {
    for (size_t i = 0; i < BOARD_INPUT_TYPES_SIZE; i++) {
        char name[40], words[FIELD_WORDS_MOST];
        sprintf(name, "input type of channel %zu", i + INPUTS_FROM);
        field_words(&field_type, record + BOARD_AT_INPUT_TYPES + i, 1, words);
        row(name, words);
    }
}

static void show_outputs(const uint8_t *record) {
    char words[WORDS_MOST] = "";
    for (int i = 0; i < OUTPUTS; i++)
        sprintf(words + strlen(words), "%s%d %s", i == 0 ? "" : ", ", i + 1,
                record[BOARD_AT_OUTPUTS] >> i & 1 ? "on" : "off");
    row("outputs", words);
}

static void show_texts(const uint8_t *record) {
    const uint8_t *model = record + BOARD_AT_MODEL;
    const uint8_t *end = memchr(model, 0, BOARD_MODEL_SIZE);
    char words[FIELD_WORDS_MOST];
    quoted_words(record + BOARD_AT_NAME, record[BOARD_AT_NAME_LENGTH], words);
    row("name", words);
    quoted_words(model, end == NULL ? BOARD_MODEL_SIZE : (size_t)(end - model), words);
    row("model", words);
}

static void show_waiting(const uint8_t *record) {
    char words[WORDS_MOST] = "nothing";
    if (record[BOARD_AT_PENDING_LENGTH] > 0)
        waiting_words(record + BOARD_AT_PENDING, record[BOARD_AT_PENDING_LENGTH], words);
    row("waiting", words);
}

static void show_pairs(const uint8_t *record) {
    if ((record[BOARD_AT_FLAGS] & BOARD_FLAG_READING) == 0) {
        row("readings", "none yet");
        return;
    }
    for (size_t i = 0; i < CHANNELS; i++) {
        const uint8_t *pair = record + BOARD_AT_PAIRS + i * BOARD_PAIR_SIZE;
        char name[40], greatest[FIELD_WORDS_MOST], smallest[FIELD_WORDS_MOST], words[WORDS_MOST];
        sprintf(name, "readings of channel %zu", i + 1);
        float_words(float_at(pair), greatest);
        float_words(float_at(pair + FLOAT_SIZE), smallest);
        sprintf(words, "greatest %s, smallest %s", greatest, smallest);
        row(name, words);
    }
}

void show_record(const uint8_t *record, bool code) {
    show_state(record, code);
    setting(record, BOARD_AT_POWER, &field_power);
    setting(record, BOARD_AT_STEP, &field_step);
    setting(record, BOARD_AT_MODE, &field_mode);
    setting(record, BOARD_AT_ON_OFF, &field_on_off);
    show_inputs(record);
    show_outputs(record);
    setting(record, BOARD_AT_INTERVAL, &field_interval);
    setting(record, BOARD_AT_FILTER, &field_filter);
    show_texts(record);
    show_waiting(record);
    show_pairs(record);
}
