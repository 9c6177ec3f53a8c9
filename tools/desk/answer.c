#include "answer.h"

#include "board.h"

#include <stdio.h>
#include <string.h>

void status_words(uint8_t status, char *words) {
    snprintf(words, WORDS_MOST, "status %02X, which is not listed", status);
    for (size_t i = 0; i < statuses_count; i++) {
        if (statuses[i].status == status && status == STATUS_DONE)
            snprintf(words, WORDS_MOST, "%s", statuses[i].says);
        else if (statuses[i].status == status)
            snprintf(words, WORDS_MOST, "refused %02X: %s", status, statuses[i].says);
    }
}

/* A record that gives a frame access, or none because of configuration mode. */
static void make_record(const uint8_t *frame, bool access, uint8_t *record) {
    const bool open = (KIND_OF(frame[AT_HEAD]) == BT121) == access;
    const size_t count = COUNT_OF(frame[AT_HEAD]);
    memset(record, 0, BOARD_RECORD_SIZE);
    record[BOARD_AT_FLAGS] = BOARD_FLAG_READING | (open ? BOARD_FLAG_OPEN : 0) | BOARD_FLAG_UNLOCKED;
    memcpy(record + BOARD_AT_CODE, frame + AT_PARAMETERS, count < BOARD_CODE_SIZE ? count : BOARD_CODE_SIZE);
}

/* A refusal has no data; what is done has those of its row. */
static bool has_due_data(const struct command *command, uint8_t status, size_t count) {
    if (status != STATUS_DONE)
        return count == 0;
    return fields_fewest(command->data) <= count && count <= fields_most(command->data);
}

/* Of one status 62 only the record tells the cause, unless there is one alone. */
static void add_other_causes(enum access access, char *words) {
    if (access == CLOSED_UNLOCKED)
        sprintf(words, "refused %02X: configuration mode is open, or the board is locked", STATUS_NO_ACCESS);
    if (access == CLOSED_TRIES_LEFT)
        sprintf(words,
                "refused %02X: configuration mode is open, three wrong tries are used, or the code is wrong",
                STATUS_NO_ACCESS);
}

bool answer_words(const uint8_t *frame, const uint8_t *reply, size_t size, char *words) {
    const struct command *command = command_named(KIND_OF(frame[AT_HEAD]), frame[AT_NUMBER]);
    const uint8_t status = reply[AT_STATUS];
    uint8_t record[BOARD_RECORD_SIZE];
    make_record(frame, status != STATUS_NO_ACCESS, record);
    if (kind_answered(reply[AT_HEAD]) != KIND_OF(frame[AT_HEAD]) || judge(record, frame).status != status ||
        !has_due_data(command, status, size - FRAME_AROUND))
        return false;
    reply_words(record, record, frame, reply, words);
    if (status == STATUS_NO_ACCESS)
        add_other_causes(command->access, words);
    return true;
}
