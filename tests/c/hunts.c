/* Every head with every number of bytes behind it, every cut, and streams of one kind up to the longest. */
#include "both.h"
#include "frames.h"
#include "parts.h"
#include "record.h"
#include "tally.h"

#include <stdio.h>
#include <string.h>

/* Up to one byte more than the longest frame, and a last byte that is 85 or nearly so. */
static void every_head(void) {
    static const uint8_t lasts[] = {0x85, 0x84, 0x05};
    uint8_t record[RECORD_SIZE], bytes[FRAME_MOST + 1];
    for (unsigned k = 0; k < 256 * sizeof lasts; k++) {
        for (size_t len = 1; len <= sizeof bytes; len++) {
            memset(bytes, 0, sizeof bytes);
            bytes[len - 1] = lasts[k % sizeof lasts];
            bytes[0] = 0xAA;
            bytes[1] = (uint8_t)(k / sizeof lasts);
            memcpy(record, factory_record, RECORD_SIZE);
            both_bytes(record, bytes, len);
        }
    }
}

/* Names set by frames within a torn one, up to one that is pending as a whole, in two calls. */
static void every_cut(void) {
    enum { INNER_MOST = PENDING_MOST - 6 };
    static const uint8_t name[INNER_MOST] = "twelve bytes";
    uint8_t record[RECORD_SIZE], bytes[FRAME_MOST + 1] = {0xAA, 0xAF};
    for (size_t count = 0; count <= INNER_MOST; count++) {
        memset(bytes + 2, 0, sizeof bytes - 2);
        put_frame(bytes + 2, BT121, 0xE9, name, count);
        for (size_t cut = 0; cut <= sizeof bytes; cut++) {
            memcpy(record, factory_record, RECORD_SIZE);
            record[AT_FLAGS] |= FLAG_OPEN;
            both_bytes(record, bytes, cut);
            both_bytes(record, bytes + cut, sizeof bytes - cut);
        }
    }
}

/* Bytes that are repeated. */
struct filling {
    size_t size;
    const uint8_t *bytes;
};

static const struct filling noise = {1, (const uint8_t[]){0x00}};
static const struct filling torn = {2, (const uint8_t[]){0xAA, 0x9F}};
static const struct filling alike = {1, (const uint8_t[]){0xAA}};
static const struct filling reads = {4, (const uint8_t[]){0xAA, 0xA0, 0xE8, 0x85}};
/* The last command shows in the record. */
static const struct filling switches = {8, (const uint8_t[]){0xAA, 0xA0, 0xE0, 0x85, 0xAA, 0xA0, 0xE1, 0x85}};

static void fill(uint8_t *to, size_t len, const struct filling *filling) {
    for (size_t i = 0; i < len; i++)
        to[i] = filling->bytes[i % filling->size];
}

/* Pending is nothing, or a head that any next byte but 85 tears, with a filling behind it. */
static void take_start(uint8_t *record, const struct filling *pending) {
    static const uint8_t name[] = "fifteen letters";
    uint8_t bytes[PENDING_MOST] = {0xAA, 0xAF};
    memcpy(record, factory_record, RECORD_SIZE);
    record[AT_FLAGS] |= FLAG_OPEN;
    field_set(record, field_named("name"), name, TEXT_MOST);
    if (pending == NULL)
        return;
    fill(bytes + 2, PENDING_MOST - 2, pending);
    field_set(record, field_named("pending"), bytes, PENDING_MOST);
}

/* The filling alone, and with a command at its end. */
static void one_length(const struct filling *pending, const struct filling *filling, size_t len) {
    static const uint8_t frame[] = {0xAA, 0xA0, 0xE1, 0x85};
    uint8_t record[RECORD_SIZE], input[BOARD_INPUT_MOST];
    fill(input, len, filling);
    take_start(record, pending);
    both_bytes(record, input, len);
    if (len < sizeof frame)
        return;
    memcpy(input + len - sizeof frame, frame, sizeof frame);
    take_start(record, pending);
    both_bytes(record, input, len);
}

/* Every short length, every length close to the longest, and some between. */
static void every_length(void) {
    static const struct filling *const pendings[] = {NULL, &noise, &reads};
    static const struct filling *const fillings[] = {&noise, &torn, &alike, &reads, &switches};
    for (size_t len = 0; len <= BOARD_INPUT_MOST; len += len < 128 || len > 4000 ? 1 : 61) {
        for (size_t i = 0; i < sizeof pendings / sizeof *pendings; i++) {
            for (size_t k = 0; k < sizeof fillings / sizeof *fillings; k++)
                one_length(pendings[i], fillings[k], len);
        }
    }
}

/* The longest input, with counts worked out by hand. */
static void count_most(const struct filling *pending, const struct filling *filling, uint32_t written,
                       uint32_t skipped) {
    uint8_t record[RECORD_SIZE], input[BOARD_INPUT_MOST];
    fill(input, sizeof input, filling);
    take_start(record, pending);
    const struct board_answer answer = both_bytes(record, input, sizeof input);
    if (tally_case(answer.written == written && answer.skipped == skipped))
        printf("%u written and %u skipped, not %u and %u\n", (unsigned)answer.written,
               (unsigned)answer.skipped, (unsigned)written, (unsigned)skipped);
}

void run_hunts(const struct settings *settings) {
    (void)settings;
    every_head();
    every_cut();
    every_length();
    /* The last 18 bytes wait. */
    count_most(NULL, &torn, 0, 4096 - 18);
    count_most(&noise, &noise, 0, 18 + 4096);
    /* The torn head's own two bytes are skipped; 4 reads are pending and 1,024 given. */
    count_most(&reads, &reads, 19 * (4 + 1024), 2);
}
