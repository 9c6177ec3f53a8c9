/* The desk's words are held to the board: what its tables say of a frame, the library says too. */
#include "board.h"
#include "hunt.h"
#include "judge.h"

#include <stdio.h>
#include <string.h>

enum { BYTE_VALUES = 256, ACCESS_STATES = 16, FILLINGS = 4 };

static unsigned long cases, failures;

static void tally(bool good, const char *what, unsigned first, unsigned second) {
    cases++;
    if (good)
        return;
    if (failures++ < 10)
        printf("the desk and the library differ: %s %02X %02X\n", what, first, second);
}

static void start_record(uint8_t *record) {
    static const uint8_t sample[BOARD_SAMPLE_SIZE] = {0};
    uint8_t output[BOARD_FRAME_SIZE];
    board_factory(record, BOARD_RECORD_SIZE);
    board_samples(record, BOARD_RECORD_SIZE, sample, sizeof sample, output, sizeof output);
}

/* The data of a reply that is done are as long as the table says. */
static bool has_data(const uint8_t *frame, const uint8_t *reply) {
    const struct command *command = command_named(KIND_OF(frame[AT_HEAD]), frame[AT_NUMBER]);
    const size_t count = COUNT_OF(reply[AT_HEAD]);
    return fields_fewest(command->data) <= count && count <= fields_most(command->data);
}

/* Bits 0 and 1: open, unlocked; bits 2 and 3: the tries. */
static void one_frame(unsigned access, unsigned head, unsigned number, const uint8_t *parameters) {
    uint8_t record[BOARD_RECORD_SIZE], frame[FRAME_MOST], reply[BOARD_ROOM(0, FRAME_MOST)];
    const size_t count = COUNT_OF(head);
    start_record(record);
    record[BOARD_AT_FLAGS] |= (uint8_t)(access & (BOARD_FLAG_OPEN | BOARD_FLAG_UNLOCKED));
    record[BOARD_AT_TRIES] = (uint8_t)(access >> 2);
    frame[0] = FRAME_START;
    frame[AT_HEAD] = (uint8_t)head;
    frame[AT_NUMBER] = (uint8_t)number;
    memcpy(frame + AT_PARAMETERS, parameters, count);
    frame[AT_PARAMETERS + count] = FRAME_END;
    const enum status told = judge(record, frame).status;
    const struct board_answer answer =
        board_bytes(record, sizeof record, frame, FRAME_AROUND + count, reply, sizeof reply);
    const bool agreed =
        answer.result == BOARD_DONE && answer.written >= FRAME_AROUND && reply[AT_STATUS] == told;
    tally(agreed && (told != STATUS_DONE || has_data(frame, reply)), "a frame with head and number", head,
          number);
}

/* Every number, count and state, with the code, with small values, with zeros and with ones. */
static void every_number(void) {
    static const uint8_t fillings[FILLINGS][PARAMETERS_MOST] = {
        {0x55, 0x53, 0x43, 0x31}, {2, 1}, {0}, {0xFF, 0xFF, 0xFF, 0xFF}};
    for (unsigned head = AMPLIFIER; head <= (BT121 | PARAMETERS_MOST); head++) {
        for (unsigned number = 0; number < BYTE_VALUES; number++) {
            for (unsigned k = 0; k < ACCESS_STATES * FILLINGS; k++)
                one_frame(k / FILLINGS, head, number, fillings[k % FILLINGS]);
        }
    }
}

/* The state in which a command's ranges are looked at. */
static unsigned let_through(const struct command *command) {
    return command->kind == BT121 ? BOARD_FLAG_OPEN : BOARD_FLAG_UNLOCKED;
}

/* Every value of one byte, and every pair of values where two are taken. */
static void every_value(void) {
    for (const struct command *command = commands; command < commands + commands_count; command++) {
        const unsigned pairs = fields_most(command->parameters) == 2 ? BYTE_VALUES : 1;
        for (unsigned k = 0; k < BYTE_VALUES * pairs; k++) {
            const uint8_t values[PARAMETERS_MOST] = {(uint8_t)k, (uint8_t)(k / BYTE_VALUES)};
            one_frame(let_through(command), command->kind + (pairs == 1 ? 1U : 2U), command->number, values);
        }
    }
}

/* Each byte of four and of fifteen with each value, the others zero: the filter word and the name. */
static void every_place(void) {
    for (const struct command *command = commands; command < commands + commands_count; command++) {
        for (unsigned k = 0; k < PARAMETERS_MOST * BYTE_VALUES; k++) {
            uint8_t bytes[PARAMETERS_MOST] = {0};
            bytes[k / BYTE_VALUES] = (uint8_t)k;
            one_frame(let_through(command), command->kind + 4U, command->number, bytes);
            one_frame(let_through(command), command->kind + (unsigned)PARAMETERS_MOST, command->number,
                      bytes);
        }
    }
}

static struct board_reading reading(const uint8_t *said, size_t len, uint32_t *entry) {
    uint32_t list[BOARD_ENTRY_NUMBERS * BOARD_ENTRIES(SAID_MOST)] = {0};
    const struct board_reading answer = board_read(said, len, list, sizeof list / sizeof *list);
    memcpy(entry, list, BOARD_ENTRY_NUMBERS * sizeof *entry);
    return answer;
}

/* A frame of the size that the desk tells is one entry; with a byte less it waits, with a wrong end it is
 * none. */
static void one_said(uint8_t *said, size_t size) {
    uint32_t entry[BOARD_ENTRY_NUMBERS];
    const unsigned head = said[AT_HEAD], third = said[AT_STATUS];
    said[size - 1] = FRAME_END;
    const struct board_reading whole = reading(said, size, entry);
    tally(whole.entries == 1 && whole.unread == 0 && entry[BOARD_ENTRY_HEAD] == head &&
              entry[BOARD_ENTRY_PLACE] == AT_DATA && entry[BOARD_ENTRY_COUNT] == size - FRAME_AROUND,
          "what a board says with head and third byte", head, third);
    tally(reading(said, size - 1, entry).unread == size - 1, "what waits with head and third byte", head,
          third);
    said[size - 1] = 0;
    tally(reading(said, size, entry).entries == 0, "what has a wrong end, with head and third byte", head,
          third);
}

/* Every head and third byte: where the desk finds no front of a frame, the library skips the byte. */
static void every_said(void) {
    for (unsigned k = 0; k < BYTE_VALUES * BYTE_VALUES; k++) {
        uint8_t said[SAID_MOST] = {FRAME_START, (uint8_t)(k / BYTE_VALUES), (uint8_t)k};
        uint32_t entry[BOARD_ENTRY_NUMBERS];
        const size_t size = said_size(said, AT_DATA);
        if (size > 0)
            one_said(said, size);
        else
            tally(reading(said, AT_DATA, entry).skipped > 0, "what starts no frame, with head and third byte",
                  said[AT_HEAD], said[AT_STATUS]);
    }
}

int main(void) {
    every_number();
    every_value();
    every_place();
    every_said();
    printf("desk tables: %lu cases, %lu failures\n", cases, failures);
    return cases > 0 && failures == 0 ? 0 : 1;
}
