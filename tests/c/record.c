#include "record.h"

#include <string.h>

/* Length, version, flags, tries; code; power, step, mode, on/off; up to the filter word; name; then zeros. */
const uint8_t factory_record[RECORD_SIZE] = "\0\x7B\1\4\0"
                                            "USC1"
                                            "\0\x0C\0\1\1"
                                            "\0\0\0\0\0\0\0\0\0\0\0"
                                            "\x0B"
                                            "GSV-6BT_dev";

/* Where the fields of document 02 start: every input type, length, text and pair by itself. */
static const uint8_t places[] = {0,  2,  3,  4,  5,  9,  11, 12, 13, 14, 15, 16, 17,  18,
                                 19, 20, 21, 25, 26, 41, 56, 57, 75, 83, 91, 99, 107, 115};

size_t place_of(size_t at) {
    size_t i = sizeof places;
    do
        i--;
    while (places[i] > at);
    return places[i];
}

bool is_place(size_t at) { return at < RECORD_SIZE && at != AT_CODE && place_of(at) == at; }

static const struct field fields[] = {
    {"flags", AT_FLAGS, 1, false},
    {"tries", AT_TRIES, 1, false},
    {"code", AT_CODE, CODE_SIZE, false},
    {"power", AT_POWER, 2, false},
    {"step", AT_STEP, 1, false},
    {"mode", AT_MODE, 1, false},
    {"on/off", AT_ON_OFF, 1, false},
    {"inputs", AT_INPUTS, AT_OUTPUTS - AT_INPUTS, false},
    {"outputs", AT_OUTPUTS, 1, false},
    {"interval", AT_INTERVAL, 1, false},
    {"filter", AT_FILTER, AT_NAME - AT_FILTER, false},
    {"name", AT_NAME, TEXT_MOST, true},
    {"model", AT_MODEL, TEXT_MOST, false},
    {"pending", AT_PENDING, PENDING_MOST, true},
    {"pairs", AT_PAIRS, RECORD_SIZE - AT_PAIRS, false},
};

const struct field *field_named(const char *name) {
    for (size_t i = 0; i < sizeof fields / sizeof *fields; i++) {
        if (strcmp(fields[i].name, name) == 0)
            return &fields[i];
    }
    return NULL;
}

void field_set(uint8_t *record, const struct field *field, const uint8_t *bytes, size_t len) {
    uint8_t *to = record + field->at;
    if (field->counted)
        *to++ = (uint8_t)len;
    memset(to, 0, field->room);
    memcpy(to, bytes, len);
}

static bool is_finite(const uint8_t *value) { return (value[0] | 0x80) != 0xFF || value[1] < 0x80; }

/* Grows with the value; the two zeros are equal. */
static int64_t order_of(const uint8_t *value) {
    const int64_t size = (value[0] & 0x7F) << 24 | value[1] << 16 | value[2] << 8 | value[3];
    return value[0] < 0x80 ? size : -size;
}

void draw_finite(struct draw *draw, uint8_t *value) {
    do
        draw_bytes(draw, value, FLOAT_SIZE);
    while (!is_finite(value));
}

static void draw_pair(struct draw *draw, uint8_t *pair) {
    uint8_t value[2][FLOAT_SIZE];
    draw_finite(draw, value[0]);
    draw_finite(draw, value[1]);
    const int greatest = order_of(value[0]) < order_of(value[1]);
    memcpy(pair, value[greatest], FLOAT_SIZE);
    memcpy(pair + FLOAT_SIZE, value[1 - greatest], FLOAT_SIZE);
}

/* An AA, a good head that asks for more bytes than there are, and anything behind. */
static void draw_pending(struct draw *draw, uint8_t *bytes, size_t len) {
    const uint32_t least = len < 4 ? 0 : (uint32_t)len - 3;
    draw_bytes(draw, bytes, len);
    if (len >= 1)
        bytes[0] = 0xAA;
    if (len >= 2)
        bytes[1] = (uint8_t)((draw_below(draw, 2) == 0 ? 0x90 : 0xA0) + least + draw_below(draw, 16 - least));
}

static void draw_settings(struct draw *draw, uint8_t *record) {
    const int power = (int)draw_below(draw, 33) - 20;
    const uint32_t interval = draw_below(draw, 57);
    record[AT_POWER] = power < 0 ? 0xFF : 0x00;
    record[AT_POWER + 1] = (uint8_t)power;
    record[AT_STEP] = (uint8_t)draw_below(draw, 6);
    record[AT_MODE] = (uint8_t)draw_below(draw, 2);
    record[AT_ON_OFF] = (uint8_t)draw_below(draw, 3);
    for (size_t at = AT_INPUTS; at < AT_OUTPUTS; at++)
        record[at] = (uint8_t)draw_below(draw, 2);
    record[AT_OUTPUTS] = (uint8_t)draw_below(draw, 16);
    record[AT_INTERVAL] = (uint8_t)(interval == 0 ? 0 : interval + 3);
    record[AT_NAME - 1] = (uint8_t)draw_below(draw, 64);
}

static void draw_texts(struct draw *draw, uint8_t *record) {
    uint8_t bytes[TEXT_MOST];
    const size_t name = draw_below(draw, TEXT_MOST + 1), model = draw_below(draw, TEXT_MOST + 1);
    for (size_t i = 0; i < name; i++)
        bytes[i] = (uint8_t)draw_below(draw, 0x80);
    field_set(record, field_named("name"), bytes, name);
    for (size_t i = 0; i < model; i++)
        bytes[i] = (uint8_t)(1 + draw_below(draw, 0xFF));
    field_set(record, field_named("model"), bytes, model);
}

void draw_record(struct draw *draw, uint8_t *record, size_t pending, bool reading) {
    uint8_t bytes[PENDING_MOST];
    memcpy(record, factory_record, RECORD_SIZE);
    record[AT_FLAGS] = (uint8_t)(draw_below(draw, FLAG_READING) | (reading ? FLAG_READING : 0));
    record[AT_TRIES] = (uint8_t)draw_below(draw, TRIES_MOST + 1);
    if (draw_below(draw, 2) == 0)
        draw_bytes(draw, record + AT_CODE, CODE_SIZE);
    draw_settings(draw, record);
    draw_texts(draw, record);
    draw_pending(draw, bytes, pending);
    field_set(record, field_named("pending"), bytes, pending);
    for (size_t at = AT_PAIRS; reading && at < RECORD_SIZE; at += 2 * FLOAT_SIZE)
        draw_pair(draw, record + at);
}
