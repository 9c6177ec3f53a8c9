/* The desk's words for a bad record are held to the board: where the library finds a fault, the desk tells
 * it. */
#include "board.h"
#include "fault.h"

#include <stdio.h>
#include <string.h>

enum { BYTE_VALUES = 256 };

static unsigned long cases, failures;

static void tally(bool good, const char *what, unsigned first, unsigned second) {
    cases++;
    if (good)
        return;
    if (failures++ < 10)
        printf("the desk and the library differ: %s %u %u\n", what, first, second);
}

/* The fields that can be bad, counted by hand from documents 01 and 02, and how their words start. */
static const struct {
    unsigned at;
    const char *words;
} fields[] = {{0, "the length ("},
              {2, "the version ("},
              {3, "the flags ("},
              {4, "the tries ("},
              {9, "the Classic power ("},
              {11, "the LE power step ("},
              {12, "the mode ("},
              {13, "the on/off state ("},
              {14, "the input type of channel 2 ("},
              {15, "the input type of channel 3 ("},
              {16, "the input type of channel 4 ("},
              {17, "the input type of channel 5 ("},
              {18, "the input type of channel 6 ("},
              {19, "the outputs ("},
              {20, "the interval ("},
              {21, "the filter word ("},
              {25, "the name length ("},
              {26, "the name: "},
              {41, "the model: "},
              {56, "the pending length ("},
              {57, "the pending bytes"},
              {75, "the pair of channel 1 ("},
              {83, "the pair of channel 2 ("},
              {91, "the pair of channel 3 ("},
              {99, "the pair of channel 4 ("},
              {107, "the pair of channel 5 ("},
              {115, "the pair of channel 6 ("}};

enum { FIELDS = sizeof fields / sizeof *fields, CODE = 5, CODE_END = 9 };

/* Which field a byte is in; for the code, the one before it. */
static unsigned field_of(unsigned at) {
    unsigned i = FIELDS - 1;
    while (fields[i].at > at)
        i--;
    return i;
}

static bool starts(const char *words, const char *front) { return strncmp(words, front, strlen(front)) == 0; }

static struct board_answer checked(const uint8_t *record, size_t len) {
    uint8_t copy[BOARD_RECORD_SIZE + 1], output[BOARD_ROOM(BOARD_PENDING_MOST, 0)];
    memcpy(copy, record, len);
    return board_bytes(copy, len, NULL, 0, output, sizeof output);
}

/* Whether the desk has words for the field where the library finds the fault, and they name it. */
static bool is_told(const uint8_t *record, size_t len, uint32_t place) {
    char words[WORDS_MOST];
    const unsigned i = field_of(place);
    return fault_words(record, len, place, words) && fields[i].at == place &&
           starts(words, len == BOARD_RECORD_SIZE ? fields[i].words : "it has ");
}

/* A good record with one byte changed is bad in its field or in one that hangs on it; or it is good, and the
 * desk sees no fault there either. */
static void one_record(const uint8_t *record, unsigned at) {
    char words[WORDS_MOST];
    const struct board_answer answer = checked(record, BOARD_RECORD_SIZE);
    const unsigned own = fields[field_of(at)].at, place = answer.place;
    const bool hangs = (own == 3 && place >= 75) || (own == 25 && place == 26) || (own == 56 && place == 57);
    const bool good = answer.result == BOARD_DONE && !fault_words(record, BOARD_RECORD_SIZE, own, words);
    const bool bad = answer.result == BOARD_BAD_RECORD && (at < CODE || at >= CODE_END) &&
                     (place == own || hangs) && is_told(record, BOARD_RECORD_SIZE, place);
    tally(good || bad, "a record changed at this place to", at, record[at]);
}

/* Each byte of a record with each value. */
static void every_byte(const uint8_t *record) {
    for (unsigned at = 0; at < BOARD_RECORD_SIZE; at++) {
        for (unsigned value = 0; value < BYTE_VALUES; value++) {
            uint8_t changed[BOARD_RECORD_SIZE];
            memcpy(changed, record, sizeof changed);
            changed[at] = (uint8_t)value;
            one_record(changed, at);
        }
    }
}

/* With and without a reading, and with every number of bytes waiting behind each kind of head. */
static void every_record(void) {
    uint8_t record[BOARD_RECORD_SIZE], output[BOARD_ROOM_MOST];
    static const uint8_t sample[BOARD_SAMPLE_SIZE] = {0};
    const uint8_t longest[] = {
        FRAME_START, BT121 | PARAMETERS_MOST, 1, 2, 3, 4, 5, 6, 7, 8, 9, 10, 11, 12, 13, 14, 15, 16};
    for (size_t waiting = 0; waiting <= BOARD_PENDING_MOST; waiting++) {
        board_factory(record, sizeof record);
        board_bytes(record, sizeof record, longest, waiting, output, sizeof output);
        every_byte(record);
        board_factory(record, sizeof record);
        board_samples(record, sizeof record, sample, sizeof sample, output, sizeof output);
        board_bytes(record, sizeof record, longest, waiting, output, sizeof output);
        every_byte(record);
    }
}

/* A value that no field allows; a model may start with it, but not go on with it behind a zero. */
static void break_field(uint8_t *record, unsigned i) {
    record[fields[i].at == BOARD_AT_MODEL ? BOARD_AT_MODEL + 1 : fields[i].at] = 0x80;
}

/* Each field alone, and of each two the first. */
static void every_field(void) {
    for (unsigned k = 0; k < FIELDS * FIELDS; k++) {
        const unsigned first = k / FIELDS, second = k % FIELDS;
        uint8_t record[BOARD_RECORD_SIZE];
        if (first > second)
            continue;
        board_factory(record, sizeof record);
        break_field(record, second);
        break_field(record, first);
        const struct board_answer answer = checked(record, sizeof record);
        tally(answer.result == BOARD_BAD_RECORD && answer.place == fields[first].at &&
                  is_told(record, sizeof record, answer.place),
              "a record bad at these two places", fields[first].at, fields[second].at);
    }
}

/* Wrong lengths are told, and no field of such a record. */
static void every_length(void) {
    const uint8_t any[BOARD_RECORD_SIZE + 1] = {0};
    char words[WORDS_MOST];
    for (size_t len = 0; len <= sizeof any; len++) {
        const struct board_answer answer = checked(any, len);
        tally(answer.result == BOARD_BAD_RECORD && answer.place == 0 && is_told(any, len, 0), "a length of",
              (unsigned)len, 0);
        tally(len == BOARD_RECORD_SIZE || !fault_words(any, len, BOARD_AT_VERSION, words),
              "the version behind a length of", (unsigned)len, 0);
    }
}

/* Where no field starts the desk has no words for one, however bad the record is; nor for a good one. */
static void every_other_place(void) {
    uint8_t bad[BOARD_RECORD_SIZE], good[BOARD_RECORD_SIZE];
    char words[WORDS_MOST];
    memset(bad, 0xFF, sizeof bad);
    board_factory(good, sizeof good);
    for (unsigned place = 0; place < 2 * BYTE_VALUES; place++) {
        const bool field = fields[field_of(place)].at == place;
        tally(field || !fault_words(bad, sizeof bad, place, words), "no field at", place, 0);
        tally(!fault_words(good, sizeof good, place, words), "no fault at", place, 0);
    }
    tally(!fault_words(bad, sizeof bad, UINT32_MAX, words), "no field at the last place", 0, 0);
}

int main(void) {
    every_record();
    every_field();
    every_length();
    every_other_place();
    printf("desk faults: %lu cases, %lu failures\n", cases, failures);
    return cases > 0 && failures == 0 ? 0 : 1;
}
