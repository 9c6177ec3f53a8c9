/* Every single-byte change of well-formed records, and the place where it makes them bad. */
#include "both.h"
#include "parts.h"
#include "record.h"
#include "tally.h"

#include <stdio.h>
#include <string.h>

enum { OTHERS = 20 };

/* Reads of name, model, power, filter word and a pair, so that a changed field shows in the replies too. */
static const uint8_t input[] = {0xAA, 0xA0, 0xE8, 0x85, 0xAA, 0x90, 0x1B, 0x85, 0xAA, 0xA0, 0xE2,
                                0x85, 0xAA, 0x90, 0x51, 0x85, 0xAA, 0x91, 0x53, 0x06, 0x85};

/* The pairs have to be zero if the flags say that there is no reading. */
static size_t first_pair_not_zero(const uint8_t *record) {
    size_t at = AT_PAIRS;
    while (at < RECORD_SIZE && record[at] == 0)
        at++;
    return place_of(at);
}

/* Where a changed byte makes a record bad, if it does; a length or flags in range spoil a later field. */
static size_t spoilt_place(const uint8_t *changed, size_t at) {
    if (at == AT_NAME && changed[at] <= TEXT_MOST)
        return AT_NAME + 1;
    if (at == AT_PENDING && changed[at] <= PENDING_MOST)
        return AT_PENDING + 1;
    if (at == AT_FLAGS && changed[at] < 2 * FLAG_READING)
        return first_pair_not_zero(changed);
    return place_of(at);
}

static bool tells_place(struct board_answer answer, size_t place) {
    return answer.result != BOARD_BAD_RECORD || answer.place == place;
}

/* Whether all calls say that the record is bad there, if they say so at all. */
static bool every_call(const uint8_t *record, const uint8_t *sample, size_t place) {
    uint8_t copy[RECORD_SIZE];
    memcpy(copy, record, RECORD_SIZE);
    bool good = tells_place(both_power_on(copy), place);
    memcpy(copy, record, RECORD_SIZE);
    good &= tells_place(both(&(struct given){CALL_BYTES, copy, RECORD_SIZE, input, sizeof input,
                                             BOARD_ROOM(PENDING_MOST, sizeof input), false}),
                        place);
    memcpy(copy, record, RECORD_SIZE);
    return good & tells_place(both_samples(copy, sample), place);
}

static void one_change(const uint8_t *changed, size_t at, const uint8_t *sample) {
    const size_t place = spoilt_place(changed, at);
    if (tally_case(every_call(changed, sample, place)))
        printf("byte %zu changed to %02X: another place than %zu\n", at, changed[at], place);
}

/* A record that is not well formed would make its changes say nothing. */
static void check_well_formed(const uint8_t *record) {
    uint8_t copy[RECORD_SIZE];
    memcpy(copy, record, RECORD_SIZE);
    if (tally_case(both_power_on(copy).result == BOARD_DONE))
        printf("a record to be changed is not well formed\n");
}

static void every_change(const uint8_t *record, const uint8_t *sample) {
    uint8_t changed[RECORD_SIZE];
    check_well_formed(record);
    memcpy(changed, record, RECORD_SIZE);
    for (size_t at = 0; at < RECORD_SIZE; at++) {
        for (unsigned value = 0; value < 256; value++) {
            changed[at] = (uint8_t)value;
            one_change(changed, at, sample);
        }
        changed[at] = record[at];
    }
}

void run_changes(const struct settings *settings) {
    struct draw draw = draw_from(settings->seed);
    uint8_t record[RECORD_SIZE], sample[BOARD_SAMPLE_SIZE];
    for (size_t at = 0; at < sizeof sample; at += FLOAT_SIZE)
        draw_finite(&draw, sample + at);
    every_change(factory_record, sample);
    for (unsigned i = 0; i < OTHERS; i++) {
        draw_record(&draw, record, i % (PENDING_MOST + 1), i % 2 == 0);
        every_change(record, sample);
    }
}
