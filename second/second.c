#include "second.h"

#include <stdbool.h>
#include <string.h>

enum {
    PREFIX = 0xAA,
    SUFFIX = 0x85,
    FRAME_EXTRA = 4,
    PARAMETERS_MAX = 15,
    REPLY_MAX = 19,
    INPUT_MAX = 4096,
    CHANNELS = 6,
    VALUE_LEN = 4,
    PAIR_LEN = 2 * VALUE_LEN,
    SAMPLE_LEN = CHANNELS * VALUE_LEN,
    MEASURING_LEN = SAMPLE_LEN + 4,
    MEASURING_HEAD = 0x15,
    MEASURING_STATUS = 0xB0
};

/* Where each field of the record starts, and how long the wider ones are. */
enum {
    LENGTH = 0,
    VERSION = 2,
    FLAGS = 3,
    TRIES = 4,
    CODE = 5,
    CODE_LEN = 4,
    CLASSIC_POWER = 9,
    CLASSIC_POWER_LEN = 2,
    LE_STEP = 11,
    MODE = 12,
    ON_OFF = 13,
    INPUT_TYPES = 14,
    INPUT_TYPES_LEN = 5,
    OUTPUTS = 19,
    INTERVAL = 20,
    FILTER = 21,
    FILTER_LEN = 4,
    NAME_LEN = 25,
    NAME = 26,
    NAME_ROOM = 15,
    MODEL = 41,
    MODEL_ROOM = 15,
    PENDING_LEN = 56,
    PENDING = 57,
    PENDING_ROOM = 18,
    PAIRS = 75,
    PAIRS_LEN = CHANNELS * PAIR_LEN,
    RECORD_LEN = PAIRS + PAIRS_LEN
};

_Static_assert(RECORD_LEN == 123, "the fields fill the record exactly");

enum { FLAG_OPEN = 1, FLAG_UNLOCKED = 2, FLAG_SENDING = 4, FLAG_READING = 8, FLAGS_ALL = 15 };

enum {
    TRIES_MAX = 3,
    POWER_LEAST = -20,
    POWER_MOST = 12,
    LE_STEP_MOST = 5,
    MODE_MOST = 1,
    ON_OFF_MOST = 2,
    INPUT_CHANNEL_FIRST = 2,
    INPUT_TYPE_MOST = 1,
    OUTPUT_LAST = 4,
    OUTPUTS_ALL = 15,
    INTERVAL_LEAST = 4,
    INTERVAL_MOST = 59,
    FILTER_ALL = 0x3F,
    NAME_BYTE_MOST = 0x7F
};

enum {
    STATUS_OK = 0x00,
    STATUS_UNKNOWN = 0x40,
    STATUS_NOT_BUILT = 0x41,
    STATUS_TOO_BIG = 0x54,
    STATUS_TOO_SMALL = 0x55,
    STATUS_PARAMETER_COUNT = 0x5B,
    STATUS_ACCESS = 0x62
};

static struct second_answer refused(uint32_t result) { return (struct second_answer){result, 0, 0, 0}; }

static struct second_answer refused_at(size_t place) {
    return (struct second_answer){1, 0, 0, (uint32_t)place};
}

static struct second_answer done(size_t written, size_t skipped) {
    return (struct second_answer){0, (uint32_t)written, (uint32_t)skipped, 0};
}

/* Numbers and values */

static int signed_byte(uint8_t byte) { return byte < 0x80 ? byte : byte - 0x100; }

static int signed_pair(const uint8_t *bytes) { return signed_byte(bytes[0]) * 0x100 + bytes[1]; }

/* Sign and size as a whole number, in the order of the finite values; both zeros come out as 0. */
static int32_t rank(const uint8_t *bytes) {
    const uint32_t bits =
        (uint32_t)bytes[0] << 24 | (uint32_t)bytes[1] << 16 | (uint32_t)bytes[2] << 8 | (uint32_t)bytes[3];
    const int32_t size = (int32_t)(bits & 0x7FFFFFFF);
    return bytes[0] < 0x80 ? size : -size;
}

/* Infinities and not-a-numbers are just the values whose eight exponent bits are all set. */
static bool value_is_finite(const uint8_t *bytes) {
    return (bytes[0] & 0x7F) != 0x7F || (bytes[1] & 0x80) == 0;
}

static bool is_good_head(uint8_t head) { return (head & 0xF0) == 0x90 || (head & 0xF0) == 0xA0; }

static size_t parameter_count(uint8_t head) { return head & 0x0F; }

/* Well-formedness */

static bool all_zero(const uint8_t *bytes, size_t len) {
    uint8_t seen = 0;
    for (size_t i = 0; i < len; i++)
        seen |= bytes[i];
    return seen == 0;
}

static bool all_at_most(const uint8_t *bytes, size_t len, uint8_t most) {
    bool good = true;
    for (size_t i = 0; i < len; i++)
        good &= bytes[i] <= most;
    return good;
}

/* What a look for faults answers if there is none; no field starts behind the record. */
enum { SOUND = RECORD_LEN };

/* The fields from the version to the filter word. */
static size_t settings_fault(const uint8_t *record) {
    const int power = signed_pair(record + CLASSIC_POWER);
    const uint8_t interval = record[INTERVAL];
    if (record[VERSION] != 1)
        return VERSION;
    if (record[FLAGS] > FLAGS_ALL)
        return FLAGS;
    if (record[TRIES] > TRIES_MAX)
        return TRIES;
    if (power < POWER_LEAST || power > POWER_MOST)
        return CLASSIC_POWER;
    if (record[LE_STEP] > LE_STEP_MOST)
        return LE_STEP;
    if (record[MODE] > MODE_MOST)
        return MODE;
    if (record[ON_OFF] > ON_OFF_MOST)
        return ON_OFF;
    for (size_t at = INPUT_TYPES; at < INPUT_TYPES + INPUT_TYPES_LEN; at++) {
        if (record[at] > INPUT_TYPE_MOST)
            return at;
    }
    if (record[OUTPUTS] > OUTPUTS_ALL)
        return OUTPUTS;
    if (interval != 0 && (interval < INTERVAL_LEAST || interval > INTERVAL_MOST))
        return INTERVAL;
    if (!all_zero(record + FILTER, FILTER_LEN - 1) || record[FILTER + FILTER_LEN - 1] > FILTER_ALL)
        return FILTER;
    return SOUND;
}

/* A length that is in its range is never the fault, even if the bytes would fit another one. */
static size_t name_fault(const uint8_t *record) {
    const size_t len = record[NAME_LEN];
    if (len > NAME_ROOM)
        return NAME_LEN;
    if (!all_at_most(record + NAME, len, NAME_BYTE_MOST) || !all_zero(record + NAME + len, NAME_ROOM - len))
        return NAME;
    return SOUND;
}

static size_t model_len(const uint8_t *record) {
    size_t len = 0;
    while (len < MODEL_ROOM && record[MODEL + len] != 0)
        len++;
    return len;
}

static size_t model_fault(const uint8_t *record) {
    const size_t len = model_len(record);
    return all_zero(record + MODEL + len, MODEL_ROOM - len) ? SOUND : MODEL;
}

/* Only an incomplete frame can be waiting, so its head must promise more bytes than there are. */
static bool can_wait(const uint8_t *bytes, size_t len) {
    if (len >= 1 && bytes[0] != PREFIX)
        return false;
    return len < 2 || (is_good_head(bytes[1]) && len < FRAME_EXTRA + parameter_count(bytes[1]));
}

static size_t pending_fault(const uint8_t *record) {
    const size_t len = record[PENDING_LEN];
    const uint8_t *pending = record + PENDING;
    if (len > PENDING_ROOM)
        return PENDING_LEN;
    return can_wait(pending, len) && all_zero(pending + len, PENDING_ROOM - len) ? SOUND : PENDING;
}

static bool pair_is_well_formed(const uint8_t *pair) {
    return value_is_finite(pair) && value_is_finite(pair + VALUE_LEN) && rank(pair + VALUE_LEN) <= rank(pair);
}

static size_t pairs_fault(const uint8_t *record) {
    const bool read = (record[FLAGS] & FLAG_READING) != 0;
    /* Six short looks would cost more than one long one, which is mostly enough. */
    if (!read && all_zero(record + PAIRS, PAIRS_LEN))
        return SOUND;
    for (size_t at = PAIRS; at < RECORD_LEN; at += PAIR_LEN) {
        const uint8_t *pair = record + at;
        if (read ? !pair_is_well_formed(pair) : !all_zero(pair, PAIR_LEN))
            return at;
    }
    return SOUND;
}

/* The place of the first faulty field. No byte may be read of a record that is too short. */
static size_t record_fault(const uint8_t *record, size_t record_len) {
    if (record_len != RECORD_LEN || record[LENGTH] != 0 || record[LENGTH + 1] != RECORD_LEN)
        return LENGTH;
    size_t fault = settings_fault(record);
    if (fault == SOUND)
        fault = name_fault(record);
    if (fault == SOUND)
        fault = model_fault(record);
    if (fault == SOUND)
        fault = pending_fault(record);
    if (fault == SOUND)
        fault = pairs_fault(record);
    return fault;
}

/* Commands */

/* One command under way: its handler answers a status and, if that is 00, may leave reply data. */
struct command_run {
    uint8_t *record;
    const uint8_t *parameters;
    size_t count;
    uint8_t *data;
    size_t data_len;
};

static uint8_t check_range(int value, int least, int most) {
    if (value > most)
        return STATUS_TOO_BIG;
    return value < least ? STATUS_TOO_SMALL : STATUS_OK;
}

static uint8_t read_field(struct command_run *run, size_t field, size_t len) {
    memcpy(run->data, run->record + field, len);
    run->data_len = len;
    return STATUS_OK;
}

static uint8_t set_byte(struct command_run *run, size_t field, int most) {
    const uint8_t status = check_range(signed_byte(run->parameters[0]), 0, most);
    if (status == STATUS_OK)
        run->record[field] = run->parameters[0];
    return status;
}

/* For the parameter pair of a place and a 0 or 1, the place is judged first because it stands to the left. */
static uint8_t check_place_and_switch(const struct command_run *run, int first, int last) {
    const uint8_t status = check_range(signed_byte(run->parameters[0]), first, last);
    return status != STATUS_OK ? status : check_range(signed_byte(run->parameters[1]), 0, 1);
}

static uint8_t open_configuration(struct command_run *run) {
    run->record[FLAGS] |= FLAG_OPEN;
    run->data[0] = 0x00;
    run->data[1] = 0x14;
    run->data_len = 2;
    return STATUS_OK;
}

static uint8_t close_configuration(struct command_run *run) {
    run->record[FLAGS] &= FLAGS_ALL & ~FLAG_OPEN;
    return STATUS_OK;
}

static uint8_t read_power(struct command_run *run) {
    return read_field(run, CLASSIC_POWER, CLASSIC_POWER_LEN);
}

static uint8_t set_power(struct command_run *run) {
    const uint8_t status = check_range(signed_pair(run->parameters), POWER_LEAST, POWER_MOST);
    if (status == STATUS_OK)
        memcpy(run->record + CLASSIC_POWER, run->parameters, CLASSIC_POWER_LEN);
    return status;
}

static uint8_t read_le_step(struct command_run *run) { return read_field(run, LE_STEP, 1); }

static uint8_t set_le_step(struct command_run *run) { return set_byte(run, LE_STEP, LE_STEP_MOST); }

static uint8_t read_mode(struct command_run *run) { return read_field(run, MODE, 1); }

static uint8_t set_mode(struct command_run *run) { return set_byte(run, MODE, MODE_MOST); }

static uint8_t read_name(struct command_run *run) { return read_field(run, NAME, run->record[NAME_LEN]); }

static uint8_t set_name(struct command_run *run) {
    if (!all_at_most(run->parameters, run->count, NAME_BYTE_MOST))
        return STATUS_TOO_BIG;
    run->record[NAME_LEN] = (uint8_t)run->count;
    memcpy(run->record + NAME, run->parameters, run->count);
    memset(run->record + NAME + run->count, 0, NAME_ROOM - run->count);
    return STATUS_OK;
}

static uint8_t read_on_off(struct command_run *run) { return read_field(run, ON_OFF, 1); }

static uint8_t set_on_off(struct command_run *run) { return set_byte(run, ON_OFF, ON_OFF_MOST); }

static uint8_t set_input_type(struct command_run *run) {
    const uint8_t status = check_place_and_switch(run, INPUT_CHANNEL_FIRST, CHANNELS);
    if (status == STATUS_OK)
        run->record[INPUT_TYPES + run->parameters[0] - INPUT_CHANNEL_FIRST] = run->parameters[1];
    return status;
}

static uint8_t read_input_type(struct command_run *run) {
    const uint8_t status = check_range(signed_byte(run->parameters[0]), INPUT_CHANNEL_FIRST, CHANNELS);
    if (status != STATUS_OK)
        return status;
    return read_field(run, (size_t)(INPUT_TYPES + run->parameters[0] - INPUT_CHANNEL_FIRST), 1);
}

static uint8_t switch_output(struct command_run *run) {
    const uint8_t status = check_place_and_switch(run, 1, OUTPUT_LAST);
    if (status != STATUS_OK)
        return status;
    const unsigned bit = 1u << (run->parameters[0] - 1);
    const unsigned others = run->record[OUTPUTS] & ~bit;
    run->record[OUTPUTS] = (uint8_t)(run->parameters[1] == 1 ? others | bit : others);
    return STATUS_OK;
}

static uint8_t read_interval(struct command_run *run) { return read_field(run, INTERVAL, 1); }

/* 0 stands apart from the range, so it is let through before the range is looked at. */
static uint8_t set_interval(struct command_run *run) {
    const int interval = signed_byte(run->parameters[0]);
    const uint8_t status = interval == 0 ? STATUS_OK : check_range(interval, INTERVAL_LEAST, INTERVAL_MOST);
    if (status == STATUS_OK)
        run->record[INTERVAL] = run->parameters[0];
    return status;
}

/* The code was compared when access was judged. */
static uint8_t unlock(struct command_run *run) {
    run->record[FLAGS] |= FLAG_UNLOCKED;
    return STATUS_OK;
}

static uint8_t read_lock(struct command_run *run) {
    run->data[0] = (run->record[FLAGS] & FLAG_UNLOCKED) != 0 ? 0x08 : 0x00;
    run->data_len = 1;
    return STATUS_OK;
}

/* A model shorter than its field is followed there by a zero, which is the closing 00 of the reply. */
static uint8_t read_model(struct command_run *run) {
    const size_t len = model_len(run->record);
    return read_field(run, MODEL, len < MODEL_ROOM ? len + 1 : len);
}

static uint8_t set_model(struct command_run *run) {
    size_t len = 0;
    while (len < run->count && run->parameters[len] != 0)
        len++;
    memcpy(run->record + MODEL, run->parameters, len);
    memset(run->record + MODEL + len, 0, MODEL_ROOM - len);
    return STATUS_OK;
}

static uint8_t stop_sending(struct command_run *run) {
    run->record[FLAGS] &= FLAGS_ALL & ~FLAG_SENDING;
    return STATUS_OK;
}

static uint8_t start_sending(struct command_run *run) {
    run->record[FLAGS] |= FLAG_SENDING;
    return STATUS_OK;
}

static uint8_t read_filter(struct command_run *run) { return read_field(run, FILTER, FILTER_LEN); }

static uint8_t set_filter(struct command_run *run) {
    if (!all_zero(run->parameters, FILTER_LEN - 1) || run->parameters[FILTER_LEN - 1] > FILTER_ALL)
        return STATUS_TOO_BIG;
    memcpy(run->record + FILTER, run->parameters, FILTER_LEN);
    return STATUS_OK;
}

/* The pairs are zero bytes before any reading, so that case needs no branch. */
static uint8_t read_pair(struct command_run *run) {
    const uint8_t channel = run->parameters[0];
    const uint8_t status = check_range(channel, 1, CHANNELS);
    if (status != STATUS_OK)
        return status;
    run->data[0] = 0x00;
    memcpy(run->data + 1, run->record + PAIRS + (channel - 1) * PAIR_LEN, PAIR_LEN);
    run->data_len = 1 + PAIR_LEN;
    return STATUS_OK;
}

/* Zero is the listing of every number that the table leaves out. */
enum listing { UNLISTED, KNOWN, BUILT };

enum access { ACCESS_ALWAYS, ACCESS_OPEN, ACCESS_CLOSED, ACCESS_CLOSED_UNLOCKED, ACCESS_CLOSED_CODE };

struct command {
    uint8_t listing, least, most, access;
    uint8_t (*handler)(struct command_run *run);
};

/* Indexed by the number, so that finding a row costs no search. */
static const struct command amplifier_commands[256] = {
    [0x17] = {KNOWN, 0, 0, 0, NULL},
    [0x18] = {KNOWN, 0, 0, 0, NULL},
    [0x19] = {BUILT, 4, 4, ACCESS_CLOSED_CODE, unlock},
    [0x1A] = {BUILT, 0, 0, ACCESS_CLOSED, read_lock},
    [0x1B] = {BUILT, 0, 0, ACCESS_CLOSED, read_model},
    [0x1C] = {BUILT, 1, 15, ACCESS_CLOSED_UNLOCKED, set_model},
    [0x23] = {BUILT, 0, 0, ACCESS_CLOSED, stop_sending},
    [0x24] = {BUILT, 0, 0, ACCESS_CLOSED, start_sending},
    [0x50] = {KNOWN, 0, 0, 0, NULL},
    [0x51] = {BUILT, 0, 0, ACCESS_CLOSED, read_filter},
    [0x52] = {BUILT, 4, 4, ACCESS_CLOSED, set_filter},
    [0x53] = {BUILT, 1, 1, ACCESS_CLOSED, read_pair},
    [0x54] = {KNOWN, 0, 0, 0, NULL},
    [0x55] = {KNOWN, 0, 0, 0, NULL},
};

static const struct command bt121_commands[256] = {
    [0xE0] = {BUILT, 0, 0, ACCESS_ALWAYS, open_configuration},
    [0xE1] = {BUILT, 0, 0, ACCESS_OPEN, close_configuration},
    [0xE2] = {BUILT, 0, 0, ACCESS_OPEN, read_power},
    [0xE3] = {BUILT, 2, 2, ACCESS_OPEN, set_power},
    [0xE4] = {BUILT, 0, 0, ACCESS_OPEN, read_le_step},
    [0xE5] = {BUILT, 1, 1, ACCESS_OPEN, set_le_step},
    [0xE6] = {BUILT, 0, 0, ACCESS_OPEN, read_mode},
    [0xE7] = {BUILT, 1, 1, ACCESS_OPEN, set_mode},
    [0xE8] = {BUILT, 0, 0, ACCESS_OPEN, read_name},
    [0xE9] = {BUILT, 0, 15, ACCESS_OPEN, set_name},
    [0xEA] = {KNOWN, 0, 0, 0, NULL},
    [0xEB] = {BUILT, 2, 2, ACCESS_OPEN, set_input_type},
    [0xEC] = {KNOWN, 0, 0, 0, NULL},
    [0xED] = {BUILT, 0, 0, ACCESS_OPEN, read_on_off},
    [0xEE] = {BUILT, 1, 1, ACCESS_OPEN, set_on_off},
    [0xEF] = {KNOWN, 0, 0, 0, NULL},
    [0xF0] = {BUILT, 1, 1, ACCESS_OPEN, read_input_type},
    [0xF1] = {BUILT, 2, 2, ACCESS_OPEN, switch_output},
    [0xF2] = {BUILT, 1, 1, ACCESS_OPEN, set_interval},
    [0xF3] = {BUILT, 0, 0, ACCESS_OPEN, read_interval},
};

/* With three tries used the code stays unlooked at, so that even the right one reveals nothing. */
static bool code_is_accepted(struct command_run *run) {
    if (run->record[TRIES] >= TRIES_MAX)
        return false;
    if (memcmp(run->record + CODE, run->parameters, CODE_LEN) == 0)
        return true;
    run->record[TRIES]++;
    return false;
}

static bool access_is_given(struct command_run *run, uint8_t access) {
    const bool open = (run->record[FLAGS] & FLAG_OPEN) != 0;
    switch (access) {
    case ACCESS_ALWAYS:
        return true;
    case ACCESS_OPEN:
        return open;
    case ACCESS_CLOSED:
        return !open;
    case ACCESS_CLOSED_UNLOCKED:
        return !open && (run->record[FLAGS] & FLAG_UNLOCKED) != 0;
    case ACCESS_CLOSED_CODE:
        return !open && code_is_accepted(run);
    default:
        return false;
    }
}

static uint8_t run_command(struct command_run *run, const struct command *row) {
    if (row->listing == UNLISTED)
        return STATUS_UNKNOWN;
    if (row->listing == KNOWN)
        return STATUS_NOT_BUILT;
    if (run->count < row->least || run->count > row->most)
        return STATUS_PARAMETER_COUNT;
    if (!access_is_given(run, row->access))
        return STATUS_ACCESS;
    return row->handler(run);
}

/* Handlers leave their data right in the reply, and none after a refusal, so nothing behind it is touched. */
static size_t carry_out(uint8_t *record, uint8_t head, uint8_t number, const uint8_t *parameters,
                        uint8_t *reply) {
    const bool bt121 = (head & 0xF0) == 0xA0;
    const struct command *row = bt121 ? &bt121_commands[number] : &amplifier_commands[number];
    struct command_run run = {record, parameters, parameter_count(head), reply + 3, 0};
    const uint8_t status = run_command(&run, row);
    reply[0] = PREFIX;
    reply[1] = (uint8_t)((bt121 ? 0x60 : 0x50) | run.data_len);
    reply[2] = status;
    reply[3 + run.data_len] = SUFFIX;
    return FRAME_EXTRA + run.data_len;
}

/* The hunt */

/* The pending bytes and the input seen as one run of bytes without being copied together. */
struct stream {
    const uint8_t *pending;
    size_t pending_len;
    const uint8_t *input;
    size_t len;
};

static uint8_t stream_byte(const struct stream *stream, size_t at) {
    return at < stream->pending_len ? stream->pending[at] : stream->input[at - stream->pending_len];
}

/* Answers the length if no prefix is left. */
static size_t find_prefix(const uint8_t *bytes, size_t at, size_t len) {
    /* Frames often stand back to back, and then a library search would cost more than it saves. */
    if (at == len || bytes[at] == PREFIX)
        return at;
    const uint8_t *found = memchr(bytes + at, PREFIX, len - at);
    return found == NULL ? len : (size_t)(found - bytes);
}

static size_t stream_find_prefix(const struct stream *stream, size_t at) {
    for (; at < stream->pending_len; at++) {
        if (stream->pending[at] == PREFIX)
            return at;
    }
    const size_t before = stream->pending_len;
    return before + find_prefix(stream->input, at - before, stream->len - before);
}

/* Copies only where the parameters begin among the pending bytes and so may not lie in one piece. */
static const uint8_t *stream_parameters(const struct stream *stream, size_t at, size_t count, uint8_t *copy) {
    if (at >= stream->pending_len)
        return stream->input + (at - stream->pending_len);
    for (size_t i = 0; i < count; i++)
        copy[i] = stream_byte(stream, at + i);
    return copy;
}

/* Bytes only ever move towards the front, so reading and writing the pending field in one pass is safe. */
static void keep_waiting(uint8_t *record, const struct stream *stream, size_t at) {
    const size_t waiting = stream->len - at;
    for (size_t i = 0; i < waiting; i++)
        record[PENDING + i] = stream_byte(stream, at + i);
    memset(record + PENDING + waiting, 0, PENDING_ROOM - waiting);
    record[PENDING_LEN] = (uint8_t)waiting;
}

static struct second_answer hunt(uint8_t *record, const struct stream *stream, uint8_t *output) {
    size_t at = 0, written = 0, skipped = 0;
    for (;;) {
        const size_t prefix = stream_find_prefix(stream, at);
        skipped += prefix - at;
        at = prefix;
        const size_t present = stream->len - at;
        if (present < 2)
            break;
        const uint8_t head = stream_byte(stream, at + 1);
        if (is_good_head(head)) {
            const size_t count = parameter_count(head);
            const size_t size = FRAME_EXTRA + count;
            if (present < size)
                break;
            if (stream_byte(stream, at + size - 1) == SUFFIX) {
                uint8_t copy[PARAMETERS_MAX];
                const uint8_t *parameters = stream_parameters(stream, at + 3, count, copy);
                written += carry_out(record, head, stream_byte(stream, at + 2), parameters, output + written);
                at += size;
                continue;
            }
        }
        at++;
        skipped++;
    }
    keep_waiting(record, stream, at);
    return done(written, skipped);
}

/* The reader */

enum { CAPTURE_MAX = 4096, ENTRY_LEN = 4, LONG_COUNT = 15, TELLING_LEN = 3 };

static struct second_reading not_read(uint32_t result) { return (struct second_reading){result, 0, 0, 0}; }

static bool is_reply_head(uint8_t head) { return (head & 0xF0) == 0x50 || (head & 0xF0) == 0x60; }

static size_t data_count(uint8_t head) { return head & 0x0F; }

static bool is_long_head(uint8_t head) { return is_reply_head(head) && data_count(head) == LONG_COUNT; }

/* For the heads that alone do not tell; a measuring frame of another status begins no frame of ours. */
static size_t size_by_third(uint8_t head, uint8_t third) {
    if (head == MEASURING_HEAD)
        return third == MEASURING_STATUS ? MEASURING_LEN : 0;
    return FRAME_EXTRA + LONG_COUNT + (size_t)third;
}

/* From a prefix on; 0 if no frame begins so, and one byte more than there are if these do not tell yet. */
static size_t sent_size(const uint8_t *bytes, size_t present) {
    if (present == 1)
        return 2;
    const uint8_t head = bytes[1];
    if (head == MEASURING_HEAD || is_long_head(head))
        return present < TELLING_LEN ? TELLING_LEN : size_by_third(head, bytes[2]);
    return is_reply_head(head) ? FRAME_EXTRA + data_count(head) : 0;
}

/* A long reply has spent its third byte on the length, so there is no status but 00 to tell. */
static void put_entry(uint32_t *entry, const uint8_t *capture, size_t at, size_t behind) {
    const uint8_t head = capture[at + 1];
    entry[0] = head;
    entry[1] = is_long_head(head) ? STATUS_OK : capture[at + 2];
    entry[2] = (uint32_t)(at + 3);
    entry[3] = (uint32_t)(behind - at - FRAME_EXTRA);
}

static struct second_reading read_frames(const uint8_t *capture, size_t len, uint32_t *list) {
    size_t at = 0, entries = 0, passed = 0;
    for (;;) {
        const size_t found = find_prefix(capture, at, len);
        passed += found - at;
        at = found;
        if (at == len)
            break;
        const size_t behind = at + sent_size(capture + at, len - at);
        if (behind > len)
            break;
        if (behind > at && capture[behind - 1] == SUFFIX) {
            put_entry(list + ENTRY_LEN * entries, capture, at, behind);
            entries++;
            at = behind;
        } else {
            at++;
            passed++;
        }
    }
    return (struct second_reading){0, (uint32_t)entries, (uint32_t)passed, (uint32_t)(len - at)};
}

/* The calls */

struct second_answer second_factory(uint8_t *record, size_t record_len) {
    static const uint8_t code[CODE_LEN] = {0x55, 0x53, 0x43, 0x31};
    static const uint8_t name[] = {'G', 'S', 'V', '-', '6', 'B', 'T', '_', 'd', 'e', 'v'};
    if (record_len != RECORD_LEN)
        return refused_at(LENGTH);
    memset(record, 0, RECORD_LEN);
    record[LENGTH + 1] = RECORD_LEN;
    record[VERSION] = 1;
    record[FLAGS] = FLAG_SENDING;
    memcpy(record + CODE, code, sizeof code);
    record[CLASSIC_POWER + 1] = POWER_MOST;
    record[MODE] = 1;
    record[ON_OFF] = 1;
    record[NAME_LEN] = sizeof name;
    memcpy(record + NAME, name, sizeof name);
    return done(0, 0);
}

struct second_answer second_power_on(uint8_t *record, size_t record_len) {
    const size_t fault = record_fault(record, record_len);
    if (fault != SOUND)
        return refused_at(fault);
    record[FLAGS] = FLAG_SENDING;
    record[TRIES] = 0;
    record[OUTPUTS] = 0;
    memset(record + PENDING_LEN, 0, 1 + PENDING_ROOM);
    memset(record + PAIRS, 0, PAIRS_LEN);
    return done(0, 0);
}

struct second_answer second_bytes(uint8_t *record, size_t record_len, const uint8_t *input, size_t input_len,
                                  uint8_t *output, size_t output_len) {
    const size_t fault = record_fault(record, record_len);
    if (fault != SOUND)
        return refused_at(fault);
    if (input_len > INPUT_MAX)
        return refused(2);
    const size_t pending_len = record[PENDING_LEN];
    const struct stream stream = {record + PENDING, pending_len, input, pending_len + input_len};
    if (output_len < REPLY_MAX * (stream.len / FRAME_EXTRA))
        return refused(3);
    return hunt(record, &stream, output);
}

/* Equal ranks replace nothing, so of two zeros with different signs the earlier one stays. */
static void widen_pair(uint8_t *pair, const uint8_t *sample) {
    const int32_t given = rank(sample);
    if (given > rank(pair))
        memcpy(pair, sample, VALUE_LEN);
    if (given < rank(pair + VALUE_LEN))
        memcpy(pair + VALUE_LEN, sample, VALUE_LEN);
}

static void keep_reading(uint8_t *record, const uint8_t *sample) {
    const bool first = (record[FLAGS] & FLAG_READING) == 0;
    uint8_t *pair = record + PAIRS;
    for (size_t i = 0; i < CHANNELS; i++, pair += PAIR_LEN, sample += VALUE_LEN) {
        if (first) {
            memcpy(pair, sample, VALUE_LEN);
            memcpy(pair + VALUE_LEN, sample, VALUE_LEN);
        } else {
            widen_pair(pair, sample);
        }
    }
    record[FLAGS] |= FLAG_READING;
}

struct second_answer second_samples(uint8_t *record, size_t record_len, const uint8_t *sample,
                                    size_t sample_len, uint8_t *output, size_t output_len) {
    const size_t fault = record_fault(record, record_len);
    if (fault != SOUND)
        return refused_at(fault);
    if (sample_len != SAMPLE_LEN)
        return refused(2);
    if (output_len < MEASURING_LEN)
        return refused(3);
    for (size_t i = 0; i < SAMPLE_LEN; i += VALUE_LEN) {
        if (!value_is_finite(sample + i))
            return refused(4);
    }
    keep_reading(record, sample);
    if ((record[FLAGS] & FLAG_SENDING) == 0)
        return done(0, 0);
    output[0] = PREFIX;
    output[1] = MEASURING_HEAD;
    output[2] = MEASURING_STATUS;
    memcpy(output + 3, sample, SAMPLE_LEN);
    output[3 + SAMPLE_LEN] = SUFFIX;
    return done(MEASURING_LEN, 0);
}

struct second_reading second_read(const uint8_t *capture, size_t capture_len, uint32_t *list,
                                  size_t list_len) {
    if (capture_len > CAPTURE_MAX)
        return not_read(2);
    if (list_len / ENTRY_LEN < capture_len / FRAME_EXTRA)
        return not_read(3);
    return read_frames(capture, capture_len, list);
}
