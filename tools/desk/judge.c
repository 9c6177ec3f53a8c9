#include "judge.h"

#include "board.h"

#include <string.h>

static bool is_code(const uint8_t *record, const uint8_t *parameters) {
    return memcmp(record + BOARD_AT_CODE, parameters, BOARD_CODE_SIZE) == 0;
}

static enum cause cause_of(const uint8_t *record, enum access access, const uint8_t *parameters) {
    const bool open = (record[BOARD_AT_FLAGS] & BOARD_FLAG_OPEN) != 0;
    if (access == ALWAYS)
        return CAUSE_NONE;
    if (access == OPEN)
        return open ? CAUSE_NONE : CAUSE_CLOSED;
    if (open)
        return CAUSE_OPEN;
    if (access == CLOSED_UNLOCKED && (record[BOARD_AT_FLAGS] & BOARD_FLAG_UNLOCKED) == 0)
        return CAUSE_LOCKED;
    if (access == CLOSED_TRIES_LEFT && record[BOARD_AT_TRIES] >= TRIES_MOST)
        return CAUSE_TRIES_USED;
    if (access == CLOSED_TRIES_LEFT && !is_code(record, parameters))
        return CAUSE_WRONG_CODE;
    return CAUSE_NONE;
}

static bool in_range(const struct field *field, int64_t number, struct verdict *verdict) {
    if (field_allows(field, number))
        return true;
    verdict->status = number > field->greatest ? STATUS_TOO_BIG : STATUS_TOO_SMALL;
    verdict->field = field;
    verdict->number = number;
    return false;
}

/* A text is looked at byte by byte, a number as a whole; any code is in range. */
static bool field_in_range(const struct field *field, const uint8_t *bytes, size_t len,
                           struct verdict *verdict) {
    if (field->form == FORM_CODE)
        return true;
    if (field->form != FORM_TEXT)
        return in_range(field, field_number(field, bytes, len), verdict);
    for (size_t i = 0; i < len; i++) {
        if (!in_range(field, bytes[i], verdict))
            return false;
    }
    return true;
}

static void look_at_ranges(const struct command *command, const uint8_t *parameters, size_t count,
                           struct verdict *verdict) {
    for (size_t i = 0; i < FIELDS_MOST && command->parameters[i] != NULL; i++) {
        const struct field *field = command->parameters[i];
        const size_t len = field->most < count ? field->most : count;
        if (!field_in_range(field, parameters, len, verdict))
            return;
        parameters += len;
        count -= len;
    }
}

struct verdict judge(const uint8_t *record, const uint8_t *frame) {
    struct verdict verdict = {STATUS_DONE, CAUSE_NONE, NULL, 0};
    const size_t count = COUNT_OF(frame[AT_HEAD]);
    const struct command *command = command_named(KIND_OF(frame[AT_HEAD]), frame[AT_NUMBER]);
    if (command == NULL)
        verdict.status = STATUS_UNKNOWN;
    else if (command->access == NOT_BUILT)
        verdict.status = STATUS_NOT_BUILT;
    else if (count < fields_fewest(command->parameters) || count > fields_most(command->parameters))
        verdict.status = STATUS_WRONG_COUNT;
    else if ((verdict.cause = cause_of(record, command->access, frame + AT_PARAMETERS)) != CAUSE_NONE)
        verdict.status = STATUS_NO_ACCESS;
    else
        look_at_ranges(command, frame + AT_PARAMETERS, count, &verdict);
    return verdict;
}
