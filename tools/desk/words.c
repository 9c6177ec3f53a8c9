#include "words.h"

#include "board.h"

#include <stdarg.h>
#include <stdio.h>
#include <string.h>

/* Adds to words that end in a zero. */
static void add(char *words, const char *format, ...) {
    const size_t len = strlen(words);
    va_list values;
    va_start(values, format);
    vsnprintf(words + len, WORDS_MOST - len, format, values);
    va_end(values);
}

/* How many bytes the field takes of those that are left. */
static size_t share(const struct field *field, size_t left) {
    return field->most < left ? field->most : left;
}

static void add_details(const struct command *command, const uint8_t *parameters, size_t count, char *words) {
    const struct field *const *field = command->parameters;
    for (const char *at = command->details; *at != '\0'; at++) {
        char value[FIELD_WORDS_MOST];
        if (*at != '#') {
            add(words, "%c", *at);
            continue;
        }
        const size_t len = share(*field, count);
        field_words(*field++, parameters, len, value);
        add(words, "%s", value);
        parameters += len;
        count -= len;
    }
}

static const struct command *command_of(const uint8_t *frame) {
    return command_named(KIND_OF(frame[AT_HEAD]), frame[AT_NUMBER]);
}

void request_words(const uint8_t *frame, char *words) {
    const struct command *command = command_of(frame);
    const size_t count = COUNT_OF(frame[AT_HEAD]);
    *words = '\0';
    if (command == NULL)
        add(words, "%s command %02X", kind_words(KIND_OF(frame[AT_HEAD])), frame[AT_NUMBER]);
    else if (command->access == NOT_BUILT)
        add(words, "%s (%s)", command->title, command->source);
    else if (count < fields_fewest(command->parameters) || count > fields_most(command->parameters))
        add(words, "%s, with %zu parameter byte%s", command->title, count, count == 1 ? "" : "s");
    else {
        add(words, "%s", command->title);
        add_details(command, frame + AT_PARAMETERS, count, words);
    }
}

/* A model shorter than its room ends in a zero that is not part of it. */
static size_t text_len(const uint8_t *bytes, size_t len) {
    const uint8_t *end = memchr(bytes, 0, len);
    return end == NULL ? len : (size_t)(end - bytes);
}

static void add_data(const struct command *command, const uint8_t *data, size_t count, char *words) {
    const char *before = ": ";
    for (size_t i = 0; i < FIELDS_MOST && command->data[i] != NULL; i++) {
        const struct field *field = command->data[i];
        const size_t len = share(field, count);
        char value[FIELD_WORDS_MOST];
        field_words(field, data, field == &field_model_read ? text_len(data, len) : len, value);
        if (field != &field_indicator) {
            add(words, "%s%s %s", before, field->name, value);
            before = ", ";
        }
        data += len;
        count -= len;
    }
}

static void add_count(const struct command *command, size_t count, char *words) {
    const size_t fewest = fields_fewest(command->parameters), most = fields_most(command->parameters);
    if (most == 0)
        add(words, "it takes no parameters");
    else if (fewest == most)
        add(words, "it takes %zu parameter byte%s", most, most == 1 ? "" : "s");
    else
        add(words, "it takes %zu to %zu parameter bytes", fewest, most);
    add(words, ", and the head announces %zu", count);
}

static void add_cause(enum cause cause, const uint8_t *after, char *words) {
    const unsigned left = (unsigned)(TRIES_MOST - after[BOARD_AT_TRIES]);
    switch (cause) {
    case CAUSE_CLOSED:
        add(words, "configuration mode is closed; AA A0 E0 85 opens it");
        break;
    case CAUSE_OPEN:
        add(words, "configuration mode is open; AA A0 E1 85 closes it");
        break;
    case CAUSE_LOCKED:
        add(words, "the board is locked; command 19 with the code unlocks it");
        break;
    case CAUSE_TRIES_USED:
        add(words, "three wrong tries are used; the code was not looked at; power-on gives new tries");
        break;
    case CAUSE_WRONG_CODE:
        add(words, "the code is wrong; %u of %d tries left", left, TRIES_MOST);
        break;
    case CAUSE_NONE:
        break;
    }
}

static void add_range(const struct verdict *verdict, const uint8_t *parameters, char *words) {
    const struct field *field = verdict->field;
    char range[FIELD_WORDS_MOST], hex[3 * PARAMETERS_MOST];
    field_range(field, range);
    if (field->form == FORM_TEXT)
        add(words, "byte %02X in the %s", (unsigned)verdict->number, field->name);
    else if (field->form == FORM_FILTER) {
        hex_words(parameters, field->most, hex);
        add(words, "%s %s", field->name, hex);
    } else
        add(words, "%s %lld", field->name, (long long)verdict->number);
    add(words, " is too %s; %s are allowed", verdict->status == STATUS_TOO_BIG ? "big" : "small", range);
}

static void add_refusal(const struct verdict *verdict, const uint8_t *after, const uint8_t *frame,
                        char *words) {
    switch (verdict->status) {
    case STATUS_UNKNOWN:
        add(words, "there is no such %s command", kind_words(KIND_OF(frame[AT_HEAD])));
        break;
    case STATUS_NOT_BUILT:
        add(words, "it is known, but not built");
        break;
    case STATUS_WRONG_COUNT:
        add_count(command_of(frame), COUNT_OF(frame[AT_HEAD]), words);
        break;
    case STATUS_NO_ACCESS:
        add_cause(verdict->cause, after, words);
        break;
    default:
        add_range(verdict, frame + AT_PARAMETERS, words);
    }
}

void reply_words(const uint8_t *before, const uint8_t *after, const uint8_t *frame, const uint8_t *reply,
                 char *words) {
    const struct verdict verdict = judge(before, frame);
    *words = '\0';
    if (reply[AT_STATUS] != STATUS_DONE) {
        add(words, "refused %02X: ", reply[AT_STATUS]);
        add_refusal(&verdict, after, frame, words);
        return;
    }
    add(words, "done");
    add_data(command_of(frame), reply + AT_DATA, COUNT_OF(reply[AT_HEAD]), words);
    if (command_of(frame)->data[0] == &field_indicator && (before[BOARD_AT_FLAGS] & BOARD_FLAG_READING) == 0)
        add(words, " (no reading yet)");
}

void hex_words(const uint8_t *bytes, size_t len, char *hex) {
    *hex = '\0';
    for (size_t i = 0; i < len; i++)
        hex += sprintf(hex, i == 0 ? "%02X" : " %02X", bytes[i]);
}

bool takes_code(unsigned kind, uint8_t number) {
    const struct command *command = command_named(kind, number);
    return command != NULL && command->parameters[0] == &field_code;
}

void frame_hex(const uint8_t *frame, size_t len, char *hex) {
    hex_words(frame, len, hex);
    if (!takes_code(KIND_OF(frame[AT_HEAD]), frame[AT_NUMBER]))
        return;
    for (size_t i = AT_PARAMETERS; i < len - 1; i++)
        memcpy(hex + 3 * i, "..", 2);
}

const char *result_words(const char *call, unsigned result) {
    switch (result) {
    case BOARD_BAD_RECORD:
        return "the library takes no record of 123 bytes";
    case BOARD_BAD_LENGTH:
        return "the input has a wrong length";
    case BOARD_NO_ROOM:
        return strcmp(call, "read") == 0 ? "too little room for the list" : "too little room for the output";
    case BOARD_NOT_FINITE:
        return "a sample is infinite or not a number";
    default:
        return "no such result";
    }
}
