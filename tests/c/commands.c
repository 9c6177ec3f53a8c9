/* Every number, parameter count and access state, and every value of the parameters. */
#include "both.h"
#include "frames.h"
#include "parts.h"
#include "record.h"

#include <string.h>

static const uint8_t kinds[] = {AMPLIFIER, BT121};

enum { KINDS = 2, ACCESS_STATES = 16, BYTE_VALUES = 256 };

/* The record that each case starts from: a reading seen, settings drawn, the factory's code. */
static uint8_t start[RECORD_SIZE];

/* Bits 0 and 1: open, unlocked; bits 2 and 3: the tries. */
static void take_start(uint8_t *record, unsigned access) {
    memcpy(record, start, RECORD_SIZE);
    record[AT_FLAGS] = (uint8_t)(FLAG_SENDING | FLAG_READING | (access & (FLAG_OPEN | FLAG_UNLOCKED)));
    record[AT_TRIES] = (uint8_t)(access >> 2);
}

static void one_frame(unsigned access, uint8_t kind, unsigned number, const uint8_t *parameters,
                      size_t count) {
    uint8_t record[RECORD_SIZE];
    take_start(record, access);
    both_frame(record, kind, (uint8_t)number, parameters, count);
}

/* Parameters that are the code, that are small, and that are anything. */
static void every_number(struct draw *draw) {
    enum { FILLINGS = 3 };
    uint8_t parameters[FILLINGS][PARAMETERS_MOST];
    for (size_t i = 0; i < PARAMETERS_MOST; i++) {
        parameters[0][i] = start[AT_CODE + i % CODE_SIZE];
        parameters[1][i] = (uint8_t)(i % 2 == 0 ? 2 : 1);
    }
    for (unsigned access = 0; access < ACCESS_STATES; access++) {
        for (size_t k = 0; k < KINDS * BYTE_VALUES * FILLINGS; k++) {
            draw_bytes(draw, parameters[2], PARAMETERS_MOST);
            for (size_t count = 0; count <= PARAMETERS_MOST; count++)
                one_frame(access, kinds[k % KINDS], (unsigned)(k / KINDS % BYTE_VALUES),
                          parameters[k / KINDS / BYTE_VALUES], count);
        }
    }
}

static void every_one_byte(void) {
    for (unsigned access = 0; access <= (FLAG_OPEN | FLAG_UNLOCKED); access++) {
        for (size_t k = 0; k < KINDS * BYTE_VALUES * BYTE_VALUES; k++) {
            const uint8_t parameter = (uint8_t)(k / KINDS / BYTE_VALUES);
            one_frame(access, kinds[k % KINDS], (unsigned)(k / KINDS % BYTE_VALUES), &parameter, 1);
        }
    }
}

/* All powers, and all places with all types or switches. */
static void every_two_bytes(void) {
    static const uint8_t numbers[] = {0xE3, 0xEB, 0xF1};
    for (size_t i = 0; i < sizeof numbers; i++) {
        for (unsigned k = 0; k < BYTE_VALUES * BYTE_VALUES; k++) {
            const uint8_t parameters[] = {(uint8_t)(k / BYTE_VALUES), (uint8_t)(k % BYTE_VALUES)};
            one_frame(FLAG_OPEN, BT121, numbers[i], parameters, sizeof parameters);
        }
    }
}

/* The given parameters with each byte changed to each value. */
static void every_byte_of(unsigned access, uint8_t kind, unsigned number, const uint8_t *parameters,
                          size_t count) {
    for (size_t at = 0; at < count; at++) {
        for (unsigned value = 0; value < BYTE_VALUES; value++) {
            uint8_t changed[PARAMETERS_MOST];
            memcpy(changed, parameters, count);
            changed[at] = (uint8_t)value;
            one_frame(access, kind, number, changed, count);
        }
    }
}

static void every_code_text_and_filter(void) {
    static const uint8_t text[PARAMETERS_MOST] = "fifteen letters";
    static const uint8_t filter[] = {0, 0, 0, 0};
    for (unsigned access = 0; access < ACCESS_STATES; access++)
        every_byte_of(access, AMPLIFIER, 0x19, start + AT_CODE, CODE_SIZE);
    for (size_t count = 1; count <= PARAMETERS_MOST; count++) {
        every_byte_of(FLAG_OPEN, BT121, 0xE9, text, count);
        every_byte_of(FLAG_UNLOCKED, AMPLIFIER, 0x1C, text, count);
    }
    every_byte_of(0, AMPLIFIER, 0x52, filter, sizeof filter);
}

/* Every code may be the record's, and then another is a wrong one, the factory's too. */
static void every_kept_code(void) {
    enum { CODES = 7 };
    static const uint8_t codes[CODES][CODE_SIZE] = {
        {0x55, 0x53, 0x43, 0x31}, {0x00, 0x00, 0x00, 0x00}, {0xFF, 0xFF, 0xFF, 0xFF},
        {0x00, 0x00, 0x00, 0x01}, {0x55, 0x00, 0x43, 0x31}, {0x55, 0x00, 0x43, 0x32},
        {0xAA, 0x94, 0x19, 0x85},
    };
    uint8_t record[RECORD_SIZE];
    for (unsigned access = 0; access < ACCESS_STATES; access++) {
        for (size_t k = 0; k < CODES * CODES; k++) {
            take_start(record, access);
            memcpy(record + AT_CODE, codes[k / CODES], CODE_SIZE);
            both_frame(record, AMPLIFIER, 0x19, codes[k % CODES], CODE_SIZE);
        }
    }
}

void run_commands(const struct settings *settings) {
    struct draw draw = draw_from(settings->seed);
    draw_record(&draw, start, 0, true);
    memcpy(start + AT_CODE, factory_record + AT_CODE, CODE_SIZE);
    every_number(&draw);
    every_one_byte();
    every_two_bytes();
    every_code_text_and_filter();
    every_kept_code();
}
