/* Lengths, rooms and the order of the refusals. */
#include "both.h"
#include "parts.h"
#include "record.h"

#include <string.h>

/* An empty buffer is lent by a pointer and by a null pointer. */
static void give(enum call call, const uint8_t *record, size_t record_len, const uint8_t *input,
                 size_t input_len, size_t room) {
    const int ways = record_len == 0 || input_len == 0 || room == 0 ? 2 : 1;
    static uint8_t copy[RECORD_ROOM];
    for (int null = 0; null < ways; null++) {
        memcpy(copy, record, record_len);
        both(&(struct given){call, copy, record_len, input, input_len, room, null == 1});
    }
}

/* Each length twice: the factory record cut or grown, and with a length field that tells the length. */
static void every_record_length(void) {
    enum { RECORD_MOST = 200 };
    static const uint8_t input[BOARD_SAMPLE_SIZE] = {0};
    uint8_t record[RECORD_MOST];
    for (size_t len = 0; len <= RECORD_MOST; len++) {
        for (unsigned told = 0; told < 2; told++) {
            memset(record, 0, sizeof record);
            memcpy(record, factory_record, RECORD_SIZE);
            record[1] = told == 1 ? (uint8_t)len : factory_record[1];
            for (int call = 0; call < CALLS; call++)
                give((enum call)call, record, len, input, sizeof input, BOARD_ROOM(0, sizeof input));
        }
    }
}

/* Lengths that are good, and rooms that are nothing, in their low 8 or 16 bits. */
static void every_long_length(void) {
    static const size_t more[] = {0x100, 0x200, 0x8000, 0x10000};
    static uint8_t record[RECORD_ROOM], input[INPUT_ROOM];
    memcpy(record, factory_record, RECORD_SIZE);
    for (size_t i = 0; i < sizeof more / sizeof *more; i++) {
        for (int call = 0; call < CALLS; call++) {
            give((enum call)call, record, RECORD_SIZE + more[i], input, BOARD_SAMPLE_SIZE, OUTPUT_ROOM);
            give((enum call)call, record, RECORD_SIZE, input, BOARD_SAMPLE_SIZE + more[i], OUTPUT_ROOM);
            give((enum call)call, record, RECORD_SIZE, input, BOARD_SAMPLE_SIZE, more[i]);
        }
    }
}

static void one_factory(uint8_t *record) {
    both(&(struct given){CALL_FACTORY, record, RECORD_SIZE, NULL, 0, 0, false});
}

/* Factory asks for 123 bytes and for nothing else. */
static void every_factory(struct draw *draw) {
    uint8_t record[RECORD_SIZE];
    for (int value = 0; value < 256; value++) {
        memset(record, value, RECORD_SIZE);
        one_factory(record);
        draw_bytes(draw, record, RECORD_SIZE);
        one_factory(record);
    }
}

/* Reads of a long name fill the room to its last byte when nothing else is in the stream. */
static void fill_with_reads(uint8_t *input, size_t len, size_t phase) {
    static const uint8_t read_name[] = {0xAA, 0xA0, 0xE8, 0x85};
    for (size_t i = 0; i < len; i++)
        input[i] = read_name[(i + phase) % sizeof read_name];
}

static void every_room_of(const uint8_t *record, const uint8_t *input, size_t len) {
    const size_t room = BOARD_ROOM(record[AT_PENDING], len);
    const size_t rooms[] = {room, room - 1, room + 1, room / 2, 0};
    for (size_t i = 0; i < sizeof rooms / sizeof *rooms; i++) {
        if (rooms[i] <= OUTPUT_ROOM)
            give(CALL_BYTES, record, RECORD_SIZE, input, len, rooms[i]);
    }
}

static void every_room(struct draw *draw) {
    enum { INPUT_LONG = 4200 };
    static const size_t long_lengths[] = {1023, 1024, 4093, 4094, 4095, 4096, 4097, 4098, INPUT_LONG};
    static const uint8_t name[] = "fifteen letters";
    uint8_t record[RECORD_SIZE], input[INPUT_LONG];
    for (size_t pending = 0; pending <= PENDING_MOST; pending++) {
        draw_record(draw, record, pending, true);
        record[AT_FLAGS] |= FLAG_OPEN;
        field_set(record, field_named("name"), name, TEXT_MOST);
        /* Up to 3 pending bytes are the begin of a read, so that no byte of the room is left over. */
        if (pending <= 3)
            fill_with_reads(record + AT_PENDING + 1, pending, 0);
        fill_with_reads(input, sizeof input, pending);
        for (size_t len = 0; len <= 64; len++)
            every_room_of(record, input, len);
        for (size_t i = 0; i < sizeof long_lengths / sizeof *long_lengths; i++)
            every_room_of(record, input, long_lengths[i]);
    }
}

static void every_sample_length(struct draw *draw) {
    static const size_t rooms[] = {0, BOARD_FRAME_SIZE - 1, BOARD_FRAME_SIZE, BOARD_FRAME_SIZE + 1};
    uint8_t record[RECORD_SIZE], sample[2 * BOARD_SAMPLE_SIZE];
    for (size_t at = 0; at < sizeof sample; at += FLOAT_SIZE)
        draw_finite(draw, sample + at);
    for (unsigned flags = 0; flags <= (FLAG_SENDING | FLAG_READING); flags += FLAG_SENDING) {
        draw_record(draw, record, 0, (flags & FLAG_READING) != 0);
        record[AT_FLAGS] = (uint8_t)flags;
        for (size_t len = 0; len <= sizeof sample; len++) {
            for (size_t i = 0; i < sizeof rooms / sizeof *rooms; i++)
                give(CALL_SAMPLES, record, RECORD_SIZE, sample, len, rooms[i]);
        }
    }
}

/* Every set of causes at once; bit 0: record, 1: length, 2: room, 3: a sample that is not finite. */
static void every_refusal(void) {
    uint8_t record[RECORD_SIZE], input[BOARD_INPUT_MOST + 1];
    for (unsigned causes = 0; causes < 16; causes++) {
        memcpy(record, factory_record, RECORD_SIZE);
        record[AT_TRIES] = (uint8_t)((causes & 1) == 0 ? TRIES_MOST : TRIES_MOST + 1);
        memset(input, 0, sizeof input);
        input[BOARD_SAMPLE_SIZE - FLOAT_SIZE] = (causes & 8) == 0 ? 0x00 : 0x7F;
        input[BOARD_SAMPLE_SIZE - FLOAT_SIZE + 1] = (causes & 8) == 0 ? 0x00 : 0x80;
        give(CALL_SAMPLES, record, RECORD_SIZE, input, (causes & 2) == 0 ? BOARD_SAMPLE_SIZE : 25,
             (causes & 4) == 0 ? BOARD_FRAME_SIZE : BOARD_FRAME_SIZE - 1);
        give(CALL_BYTES, record, RECORD_SIZE, input,
             (causes & 2) == 0 ? BOARD_INPUT_MOST : BOARD_INPUT_MOST + 1,
             (causes & 4) == 0 ? BOARD_ROOM_MOST : 0);
    }
}

void run_limits(const struct settings *settings) {
    struct draw draw = draw_from(settings->seed);
    every_record_length();
    every_long_length();
    every_factory(&draw);
    every_room(&draw);
    every_sample_length(&draw);
    every_refusal();
}
