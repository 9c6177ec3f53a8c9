/* Random streams of good, nearly good, cut and nested frames and noise, in random cuts. */
#include "both.h"
#include "frames.h"
#include "parts.h"
#include "record.h"
#include "tally.h"

#include <string.h>

/* An item of a stream is at most so long. */
enum { STREAM_MOST = 6000, ITEM_MOST = 64 };

/* A good frame with one bit of head or number, or one byte anywhere, not as it should be. */
static size_t put_nearly_good(struct draw *draw, uint8_t *to, const uint8_t *code) {
    const size_t len = draw_frame(draw, to, code);
    if (draw_below(draw, 2) == 0)
        to[1 + draw_below(draw, 2)] ^= (uint8_t)(1u << draw_below(draw, 8));
    else
        to[draw_below(draw, (uint32_t)len)] = draw_byte(draw);
    return len;
}

/* A head with frames as its parameters; an 85 that ends the outer frame may tear the last of them. */
static size_t put_nested(struct draw *draw, uint8_t *to, const uint8_t *code) {
    const size_t count = 4 + draw_below(draw, PARAMETERS_MOST - 3);
    size_t len = 3;
    to[0] = 0xAA;
    to[1] = (uint8_t)((draw_below(draw, 2) == 0 ? AMPLIFIER : BT121) | count);
    to[2] = commands[draw_below(draw, COMMANDS)].number;
    while (len < 4 + count)
        len += draw_frame(draw, to + len, code);
    if (draw_below(draw, 2) == 0)
        to[3 + count] = 0x85;
    return len;
}

/* Any bytes, or bytes that often make heads and ends. */
static size_t put_noise(struct draw *draw, uint8_t *to) {
    static const uint8_t close[] = {0xAA, 0xAA, 0x85, 0x85, 0x90, 0x91, 0x94,
                                    0x9F, 0xA0, 0xA1, 0xA2, 0xAF, 0x23};
    const size_t len = 1 + draw_below(draw, ITEM_MOST);
    const uint32_t kind = draw_below(draw, 3);
    for (size_t i = 0; i < len; i++) {
        if (kind == 0)
            to[i] = draw_byte(draw);
        else
            to[i] = draw_one(draw, close, kind == 1 ? 4 : sizeof close);
    }
    return len;
}

static size_t put_item(struct draw *draw, uint8_t *to, const uint8_t *code) {
    switch (draw_below(draw, 8)) {
    case 0:
        return put_nearly_good(draw, to, code);
    case 1:
        return draw_below(draw, (uint32_t)draw_frame(draw, to, code));
    case 2:
        return put_nested(draw, to, code);
    case 3:
        return put_noise(draw, to);
    default:
        return draw_frame(draw, to, code);
    }
}

static size_t draw_cut(struct draw *draw, size_t left) {
    const uint32_t most = draw_below(draw, 32) == 0 ? BOARD_INPUT_MOST : 48;
    const size_t cut = draw_below(draw, most + 1);
    return cut < left ? cut : left;
}

static void draw_sample(struct draw *draw, uint8_t *sample, const uint8_t *record) {
    for (size_t i = 0; i < CHANNELS; i++) {
        uint8_t *value = sample + i * FLOAT_SIZE;
        draw_finite(draw, value);
        /* A kept value, or its neighbour, tries the strict comparison. */
        if (draw_below(draw, 2) == 0) {
            memcpy(value, record + AT_PAIRS + (2 * i + draw_below(draw, 2)) * FLOAT_SIZE, FLOAT_SIZE);
            value[FLOAT_SIZE - 1] ^= (uint8_t)draw_below(draw, 2);
        }
        if (draw_below(draw, 64) == 0)
            memset(value, 0xFF, 2);
    }
}

/* Calls that a chair makes between received bytes, and calls that are refused. */
static void other_call(struct draw *draw, uint8_t *record) {
    uint8_t sample[BOARD_SAMPLE_SIZE];
    switch (draw_below(draw, 16)) {
    case 0:
        both(&(struct given){CALL_FACTORY, record, RECORD_SIZE, NULL, 0, 0, false});
        break;
    case 1:
        both_power_on(record);
        break;
    case 2:
        both(&(struct given){CALL_BYTES, record, RECORD_SIZE, factory_record, RECORD_SIZE,
                             draw_below(draw, 2 * (uint32_t)BOARD_ROOM(0, RECORD_SIZE)), false});
        break;
    default:
        draw_sample(draw, sample, record);
        both_samples(record, sample);
        break;
    }
}

/* One stream over one record. */
static void one_stream(struct draw *draw) {
    static uint8_t stream[STREAM_MOST];
    const size_t most = draw_below(draw, 16) == 0 ? STREAM_MOST - ITEM_MOST : 400;
    uint8_t record[RECORD_SIZE];
    size_t len = 0;
    if (draw_below(draw, 2) == 0)
        memcpy(record, factory_record, RECORD_SIZE);
    else
        draw_record(draw, record, draw_below(draw, PENDING_MOST + 1), draw_below(draw, 2) == 0);
    while (len < most)
        len += put_item(draw, stream + len, record + AT_CODE);
    for (size_t at = 0; at < len;) {
        const size_t cut = draw_cut(draw, len - at);
        both_bytes(record, stream + at, cut);
        at += cut;
        if (draw_below(draw, 8) == 0)
            other_call(draw, record);
    }
}

void run_streams(const struct settings *settings) {
    struct draw draw = draw_from(settings->seed);
    const unsigned long before = tally.passed + tally.failed;
    while (tally.passed + tally.failed - before < settings->calls)
        one_stream(&draw);
}
