/* What board.h says of places, sizes, helpers and alignment, held against what the archive does. */
#include "board.h"

#include <stdio.h>
#include <string.h>

/* Each field starts where the one before ends, and the last ends with the record. */
#define FOLLOWS(at, before, size) _Static_assert((at) == (before) + (size), #at " follows " #before)
FOLLOWS(BOARD_AT_LENGTH, 0, 0);
FOLLOWS(BOARD_AT_VERSION, BOARD_AT_LENGTH, BOARD_LENGTH_SIZE);
FOLLOWS(BOARD_AT_FLAGS, BOARD_AT_VERSION, 1);
FOLLOWS(BOARD_AT_TRIES, BOARD_AT_FLAGS, 1);
FOLLOWS(BOARD_AT_CODE, BOARD_AT_TRIES, 1);
FOLLOWS(BOARD_AT_POWER, BOARD_AT_CODE, BOARD_CODE_SIZE);
FOLLOWS(BOARD_AT_STEP, BOARD_AT_POWER, BOARD_POWER_SIZE);
FOLLOWS(BOARD_AT_MODE, BOARD_AT_STEP, 1);
FOLLOWS(BOARD_AT_ON_OFF, BOARD_AT_MODE, 1);
FOLLOWS(BOARD_AT_INPUT_TYPES, BOARD_AT_ON_OFF, 1);
FOLLOWS(BOARD_AT_OUTPUTS, BOARD_AT_INPUT_TYPES, BOARD_INPUT_TYPES_SIZE);
FOLLOWS(BOARD_AT_INTERVAL, BOARD_AT_OUTPUTS, 1);
FOLLOWS(BOARD_AT_FILTER, BOARD_AT_INTERVAL, 1);
FOLLOWS(BOARD_AT_NAME_LENGTH, BOARD_AT_FILTER, BOARD_FILTER_SIZE);
FOLLOWS(BOARD_AT_NAME, BOARD_AT_NAME_LENGTH, 1);
FOLLOWS(BOARD_AT_MODEL, BOARD_AT_NAME, BOARD_NAME_SIZE);
FOLLOWS(BOARD_AT_PENDING_LENGTH, BOARD_AT_MODEL, BOARD_MODEL_SIZE);
FOLLOWS(BOARD_AT_PENDING, BOARD_AT_PENDING_LENGTH, 1);
FOLLOWS(BOARD_AT_PAIRS, BOARD_AT_PENDING, BOARD_PENDING_SIZE);
FOLLOWS(BOARD_RECORD_SIZE, BOARD_AT_PAIRS, BOARD_PAIRS_SIZE);
FOLLOWS(BOARD_AT_INPUT_TYPE(2), BOARD_AT_INPUT_TYPES, 0);
FOLLOWS(BOARD_AT_OUTPUTS, BOARD_AT_INPUT_TYPE(6), 1);
FOLLOWS(BOARD_AT_PAIR(1), BOARD_AT_PAIRS, 0);
FOLLOWS(BOARD_RECORD_SIZE, BOARD_AT_PAIR(6), BOARD_PAIR_SIZE);
_Static_assert(BOARD_PAIRS_SIZE == 6 * BOARD_PAIR_SIZE, "six pairs");
_Static_assert(BOARD_PENDING_SIZE == BOARD_PENDING_MOST, "room for the most bytes pending");
_Static_assert(BOARD_ROOM_MOST == 19532, "the room of document 01");
_Static_assert((BOARD_FLAG_OPEN | BOARD_FLAG_SENDING) == 5, "as E0 leaves them in a new record");
_Static_assert(BOARD_ENTRIES(BOARD_CAPTURE_MOST) == 1024, "the entries of document 02");

/* So many numbers are a list for a capture of so many bytes. */
#define LIST_LEN(capture_len) (BOARD_ENTRY_NUMBERS * BOARD_ENTRIES(capture_len))

enum { NOTHING, OPENED, UNLOCKED };

/* Bytes that a field holds afterwards. */
struct field {
    size_t at, size;
    const char *bytes;
};

/* The input, sent to a new record that was opened or unlocked before, changes these fields and no others. */
static const struct change {
    int before;
    size_t len;
    const char *input;
    struct field fields[2];
} changes[] = {
    {NOTHING, 4, "\xAA\xA0\xE0\x85", {{BOARD_AT_FLAGS, 1, "\x05"}}},
    {NOTHING, 4, "\xAA\x90\x23\x85", {{BOARD_AT_FLAGS, 1, "\x00"}}},
    {NOTHING, 8, "\xAA\x94\x19USC1\x85", {{BOARD_AT_FLAGS, 1, "\x06"}}},
    {NOTHING, 8, "\xAA\x94\x19USC2\x85", {{BOARD_AT_TRIES, 1, "\x01"}}},
    {OPENED, 6, "\xAA\xA2\xE3\xFF\xEC\x85", {{BOARD_AT_POWER, BOARD_POWER_SIZE, "\xFF\xEC"}}},
    {OPENED, 5, "\xAA\xA1\xE5\x05\x85", {{BOARD_AT_STEP, 1, "\x05"}}},
    {OPENED, 5, "\xAA\xA1\xE7\x00\x85", {{BOARD_AT_MODE, 1, "\x00"}}},
    {OPENED, 5, "\xAA\xA1\xEE\x02\x85", {{BOARD_AT_ON_OFF, 1, "\x02"}}},
    {OPENED, 6, "\xAA\xA2\xEB\x02\x01\x85", {{BOARD_AT_INPUT_TYPES, 5, "\x01\x00\x00\x00\x00"}}},
    {OPENED, 6, "\xAA\xA2\xEB\x06\x01\x85", {{BOARD_AT_INPUT_TYPES, 5, "\x00\x00\x00\x00\x01"}}},
    {OPENED, 6, "\xAA\xA2\xF1\x04\x01\x85", {{BOARD_AT_OUTPUTS, 1, "\x08"}}},
    {OPENED, 5, "\xAA\xA1\xF2\x3B\x85", {{BOARD_AT_INTERVAL, 1, "\x3B"}}},
    {NOTHING,
     8,
     "\xAA\x94\x52\x00\x00\x00\x3F\x85",
     {{BOARD_AT_FILTER, BOARD_FILTER_SIZE, "\x00\x00\x00\x3F"}}},
    {OPENED,
     19,
     "\xAA\xAF\xE9"
     "fifteen letters\x85",
     {{BOARD_AT_NAME_LENGTH, 1, "\x0F"}, {BOARD_AT_NAME, BOARD_NAME_SIZE, "fifteen letters"}}},
    {UNLOCKED,
     19,
     "\xAA\x9F\x1C"
     "fifteen letters\x85",
     {{BOARD_AT_MODEL, BOARD_MODEL_SIZE, "fifteen letters"}}},
    {NOTHING,
     18,
     "\xAA\x9F\x1C"
     "fifteen letters",
     {{BOARD_AT_PENDING_LENGTH, 1, "\x12"},
      {BOARD_AT_PENDING, BOARD_PENDING_SIZE,
       "\xAA\x9F\x1C"
       "fifteen letters"}}},
};

static unsigned passed, failed;

static void check(const char *what, unsigned row, int good) {
    if (good)
        passed++;
    else
        failed++;
    if (!good)
        printf("wrong: %s %u\n", what, row);
}

static void send(uint8_t *record, const char *input, size_t len) {
    uint8_t output[BOARD_ROOM(BOARD_PENDING_MOST, 32)];
    board_bytes(record, BOARD_RECORD_SIZE, (const uint8_t *)input, len, output, sizeof output);
}

static void new_record(uint8_t *record, int before) {
    board_factory(record, BOARD_RECORD_SIZE);
    if (before == OPENED)
        send(record, "\xAA\xA0\xE0\x85", 4);
    if (before == UNLOCKED)
        send(record, "\xAA\x94\x19USC1\x85", 8);
}

static void check_change(const struct change *change, unsigned row) {
    uint8_t record[BOARD_RECORD_SIZE], wanted[BOARD_RECORD_SIZE];
    new_record(record, change->before);
    memcpy(wanted, record, sizeof wanted);
    for (size_t i = 0; i < 2 && change->fields[i].size > 0; i++)
        memcpy(wanted + change->fields[i].at, change->fields[i].bytes, change->fields[i].size);
    send(record, change->input, change->len);
    check("change", row, memcmp(record, wanted, sizeof wanted) == 0);
}

/* Length, version and code are changed by no command. */
static void check_fixed(void) {
    uint8_t record[BOARD_RECORD_SIZE];
    new_record(record, NOTHING);
    check("length", 0, record[BOARD_AT_LENGTH] == 0 && record[BOARD_AT_LENGTH + 1] == BOARD_RECORD_SIZE);
    check("version", 0, record[BOARD_AT_VERSION] == BOARD_RECORD_VERSION);
    memcpy(record + BOARD_AT_CODE, "\x00\xFF\x85\xAA", BOARD_CODE_SIZE);
    send(record, "\xAA\x94\x19\x00\xFF\x85\xAA\x85", 8);
    check("own code", 0, record[BOARD_AT_FLAGS] == (BOARD_FLAG_SENDING | BOARD_FLAG_UNLOCKED));
}

/* Channel c measures c, then -c; a value is 4 bytes, its sign the first bit. */
static void check_pairs(void) {
    static const uint8_t values[6][2] = {{0x3F, 0x80}, {0x40, 0x00}, {0x40, 0x40},
                                         {0x40, 0x80}, {0x40, 0xA0}, {0x40, 0xC0}};
    uint8_t record[BOARD_RECORD_SIZE], sample[BOARD_SAMPLE_SIZE] = {0}, output[BOARD_FRAME_SIZE];
    new_record(record, NOTHING);
    for (unsigned sign = 0; sign <= 0x80; sign += 0x80) {
        for (unsigned i = 0; i < 6; i++) {
            sample[4 * i] = (uint8_t)(values[i][0] | sign);
            sample[4 * i + 1] = values[i][1];
        }
        board_samples(record, sizeof record, sample, sizeof sample, output, sizeof output);
    }
    check("reading flag", 0, record[BOARD_AT_FLAGS] == (BOARD_FLAG_SENDING | BOARD_FLAG_READING));
    for (unsigned i = 0; i < 6; i++) {
        const uint8_t greatest[] = {values[i][0], values[i][1], 0, 0};
        check("greatest", i + 1, memcmp(record + BOARD_AT_GREATEST(i + 1), greatest, 4) == 0);
        check("smallest", i + 1, memcmp(record + BOARD_AT_SMALLEST(i + 1), sample + 4 * i, 4) == 0);
    }
}

static void check_helpers(void) {
    uint8_t record[BOARD_RECORD_SIZE];
    new_record(record, OPENED);
    for (int power = -20; power <= 12; power++) {
        const char frame[] = {'\xAA', '\xA2', '\xE3', power < 0 ? '\xFF' : '\0', (char)power, '\x85'};
        send(record, frame, sizeof frame);
        check("power", (unsigned)(power + 20), BOARD_POWER(record) == power);
    }
    for (char k = 1; k <= 4; k++) {
        const char on[] = {'\xAA', '\xA2', '\xF1', k, 1, '\x85'},
                   off[] = {'\xAA', '\xA2', '\xF1', k, 0, '\x85'};
        send(record, on, sizeof on);
        for (int other = 1; other <= 4; other++)
            check("output", (unsigned)other, BOARD_OUTPUT(record, other) == (other == k));
        send(record, off, sizeof off);
    }
    for (char channel = 2; channel <= 6; channel++) {
        const char frame[] = {'\xAA', '\xA2', '\xEB', channel, 1, '\x85'};
        check("input type", (unsigned)channel, BOARD_INPUT_TYPE(record, channel) == 0);
        send(record, frame, sizeof frame);
        check("input type", (unsigned)channel, BOARD_INPUT_TYPE(record, channel) == 1);
    }
}

/* A new record with this byte is bad at this place. */
static const struct fault {
    uint32_t place;
    size_t at;
    uint8_t byte;
} faults[] = {
    {BOARD_AT_LENGTH, BOARD_AT_LENGTH + 1, BOARD_RECORD_SIZE + 1},
    {BOARD_AT_VERSION, BOARD_AT_VERSION, BOARD_RECORD_VERSION + 1},
    {BOARD_AT_FLAGS, BOARD_AT_FLAGS, 0x10},
    {BOARD_AT_TRIES, BOARD_AT_TRIES, 4},
    {BOARD_AT_POWER, BOARD_AT_POWER + 1, 13},
    {BOARD_AT_STEP, BOARD_AT_STEP, 6},
    {BOARD_AT_MODE, BOARD_AT_MODE, 2},
    {BOARD_AT_ON_OFF, BOARD_AT_ON_OFF, 3},
    {BOARD_AT_INPUT_TYPE(2), BOARD_AT_INPUT_TYPES, 2},
    {BOARD_AT_INPUT_TYPE(6), BOARD_AT_INPUT_TYPES + 4, 2},
    {BOARD_AT_OUTPUTS, BOARD_AT_OUTPUTS, 0x10},
    {BOARD_AT_INTERVAL, BOARD_AT_INTERVAL, 3},
    {BOARD_AT_FILTER, BOARD_AT_FILTER + 3, 0x40},
    {BOARD_AT_NAME_LENGTH, BOARD_AT_NAME_LENGTH, BOARD_NAME_SIZE + 1},
    {BOARD_AT_NAME, BOARD_AT_NAME_LENGTH, 0},
    {BOARD_AT_NAME, BOARD_AT_NAME + BOARD_NAME_SIZE - 1, 1},
    {BOARD_AT_MODEL, BOARD_AT_MODEL + BOARD_MODEL_SIZE - 1, 1},
    {BOARD_AT_PENDING_LENGTH, BOARD_AT_PENDING_LENGTH, BOARD_PENDING_MOST + 1},
    {BOARD_AT_PENDING, BOARD_AT_PENDING_LENGTH, BOARD_PENDING_MOST},
    {BOARD_AT_PENDING, BOARD_AT_PENDING + BOARD_PENDING_SIZE - 1, 1},
    {BOARD_AT_PAIR(1), BOARD_AT_PAIRS, 1},
    {BOARD_AT_PAIR(2), BOARD_AT_SMALLEST(2), 1},
    {BOARD_AT_PAIR(6), BOARD_AT_SMALLEST(6) + 3, 1},
};

static void check_faults(void) {
    uint8_t record[BOARD_RECORD_SIZE];
    for (unsigned i = 0; i < sizeof faults / sizeof *faults; i++) {
        new_record(record, NOTHING);
        record[faults[i].at] = faults[i].byte;
        const struct board_answer answer = board_power_on(record, sizeof record);
        check("fault", i, answer.result == BOARD_BAD_RECORD && answer.place == faults[i].place);
    }
    new_record(record, NOTHING);
    const struct board_answer cut = board_power_on(record, sizeof record - 1),
                              whole = board_power_on(record, sizeof record);
    check("cut record", 0, cut.result == BOARD_BAD_RECORD && cut.place == BOARD_AT_LENGTH);
    check("whole record", 0, whole.result == BOARD_DONE && whole.place == 0);
}

/* A reply between a byte of noise and one that waits. */
static void check_entry(void) {
    static const uint8_t capture[] = {0x00, 0xAA, 0x62, 0x54, 0x01, 0x02, 0x85, 0xAA};
    uint32_t list[LIST_LEN(sizeof capture)];
    const struct board_reading reading = board_read(capture, sizeof capture, list, LIST_LEN(sizeof capture));
    check("reading", 0, reading.result == BOARD_DONE && reading.entries == 1);
    check("skipped and unread", 0, reading.skipped == 1 && reading.unread == 1);
    check("head", 0, list[BOARD_ENTRY_HEAD] == 0x62);
    check("status", 0, list[BOARD_ENTRY_STATUS] == 0x54);
    check("place", 0, list[BOARD_ENTRY_PLACE] == 4);
    check("count", 0, list[BOARD_ENTRY_COUNT] == 2);
}

static void check_capture_most(void) {
    static uint8_t capture[BOARD_CAPTURE_MOST + 1];
    static uint32_t list[LIST_LEN(BOARD_CAPTURE_MOST)];
    const size_t len = LIST_LEN(BOARD_CAPTURE_MOST);
    check("longest capture", 0, board_read(capture, sizeof capture - 1, list, len).result == BOARD_DONE);
    check("longer capture", 0, board_read(capture, sizeof capture, list, len).result == BOARD_BAD_LENGTH);
    check("short list", 0, board_read(capture, sizeof capture - 1, list, len - 1).result == BOARD_NO_ROOM);
}

/* Inputs, a sample and its frame read, all bytes so far behind an aligned address; 1 if all are done. */
static int session_at(size_t shift, uint8_t *left) {
    static _Alignas(16) uint8_t records[16 + BOARD_RECORD_SIZE], inputs[16 + 32], outputs[16 + 256];
    uint8_t *record = records + shift, *input = inputs + shift, *output = outputs + shift;
    uint32_t list[LIST_LEN(BOARD_FRAME_SIZE)];
    int done = board_factory(record, BOARD_RECORD_SIZE).result == BOARD_DONE;
    for (size_t i = 0; i < sizeof changes / sizeof *changes; i++) {
        memcpy(input, changes[i].input, changes[i].len);
        done &=
            board_bytes(record, BOARD_RECORD_SIZE, input, changes[i].len, output, 256).result == BOARD_DONE;
    }
    memset(input, 0x40, BOARD_SAMPLE_SIZE);
    done &=
        board_samples(record, BOARD_RECORD_SIZE, input, BOARD_SAMPLE_SIZE, output, 256).result == BOARD_DONE;
    done &= board_read(output, BOARD_FRAME_SIZE, list, LIST_LEN(BOARD_FRAME_SIZE)).entries == 1;
    memcpy(left, record, BOARD_RECORD_SIZE);
    memcpy(left + BOARD_RECORD_SIZE, output, BOARD_FRAME_SIZE);
    done &= board_power_on(record, BOARD_RECORD_SIZE).result == BOARD_DONE;
    return done;
}

static void check_alignment(void) {
    uint8_t aligned[BOARD_RECORD_SIZE + BOARD_FRAME_SIZE], shifted[sizeof aligned];
    check("aligned", 0, session_at(0, aligned));
    for (unsigned shift = 1; shift < 16; shift++)
        check("shifted", shift, session_at(shift, shifted) && memcmp(aligned, shifted, sizeof aligned) == 0);
}

static void check_version(void) {
    char version[32];
    snprintf(version, sizeof version, "%d.%d.%d", BOARD_VERSION_MAJOR, BOARD_VERSION_MINOR,
             BOARD_VERSION_PATCH);
    check("version text", 0, strcmp(version, BOARD_VERSION) == 0);
}

int main(void) {
    for (unsigned i = 0; i < sizeof changes / sizeof *changes; i++)
        check_change(&changes[i], i);
    check_fixed();
    check_pairs();
    check_helpers();
    check_faults();
    check_entry();
    check_capture_most();
    check_alignment();
    check_version();
    printf("places: %u passed, %u failed\n", passed, failed);
    return failed > 0;
}
