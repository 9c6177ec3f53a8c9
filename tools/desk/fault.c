#include "fault.h"

#include "board.h"
#include "hunt.h"

#include <inttypes.h>
#include <math.h>
#include <stdio.h>

/* A field by the place where it starts, and what tells its fault: false if what stands there is allowed. */
struct kept {
    uint32_t at;
    const char *name;
    const struct field *field; /* NULL, or a number in the range of this one */
    bool (*fault)(const uint8_t *record, const struct kept *kept, char *words);
};

#define SAY(...) (snprintf(words, WORDS_MOST, __VA_ARGS__), true)

/* The bytes from first to last of a field, in words. */
static const char *bytes_words(size_t at, size_t len, char *words) {
    if (len == 1)
        sprintf(words, "byte %zu", at);
    else
        sprintf(words, "bytes %zu %s %zu", at, len == 2 ? "and" : "to", at + len - 1);
    return words;
}

static bool length_fault(const uint8_t *record, const struct kept *kept, char *words) {
    const int length = record[kept->at] << 8 | record[kept->at + 1];
    char bytes[40];
    if (length == BOARD_RECORD_SIZE)
        return false;
    return SAY("the %s (%s) is %d; %d is due", kept->name, bytes_words(kept->at, BOARD_LENGTH_SIZE, bytes),
               length, BOARD_RECORD_SIZE);
}

static bool version_fault(const uint8_t *record, const struct kept *kept, char *words) {
    const unsigned version = record[kept->at];
    if (version == BOARD_RECORD_VERSION)
        return false;
    return SAY("the %s (byte %" PRIu32 ") is %u; %d is due", kept->name, kept->at, version,
               BOARD_RECORD_VERSION);
}

static bool bits_fault(const uint8_t *record, const struct kept *kept, char *words) {
    enum { ALLOWED = 0x0F };
    const unsigned bits = record[kept->at];
    if ((bits & ~(unsigned)ALLOWED) == 0)
        return false;
    return SAY("the %s (byte %" PRIu32 ") are %02X; bits 4 to 7 have to be 0", kept->name, kept->at, bits);
}

static bool tries_fault(const uint8_t *record, const struct kept *kept, char *words) {
    const unsigned tries = record[kept->at];
    if (tries <= TRIES_MOST)
        return false;
    return SAY("the %s (byte %" PRIu32 ") are %u; 0 to %d are allowed", kept->name, kept->at, tries,
               TRIES_MOST);
}

/* A setting keeps the range that its command gives it. */
static bool number_fault(const uint8_t *record, const struct kept *kept, char *words) {
    const struct field *field = kept->field;
    char bytes[40], range[FIELD_WORDS_MOST];
    const int64_t number = field_number(field, record + kept->at, field->most);
    if (field_allows(field, number))
        return false;
    field_range(field, range);
    return SAY("the %s (%s) is %lld; %s are allowed", kept->name, bytes_words(kept->at, field->most, bytes),
               (long long)number, range);
}

static bool filter_fault(const uint8_t *record, const struct kept *kept, char *words) {
    const uint8_t *filter = record + kept->at;
    char bytes[40], hex[3 * BOARD_FILTER_SIZE];
    if (field_allows(kept->field, field_number(kept->field, filter, BOARD_FILTER_SIZE)))
        return false;
    hex_words(filter, BOARD_FILTER_SIZE, hex);
    return SAY("the %s (%s) is %s; bits above bit 5 have to be 0", kept->name,
               bytes_words(kept->at, BOARD_FILTER_SIZE, bytes), hex);
}

/* The place of the first byte that is not zero, or the end. */
static size_t zeros_end(const uint8_t *record, size_t at, size_t end) {
    while (at < end && record[at] == 0)
        at++;
    return at;
}

/* How many bytes of a field count; a length beyond its room is another field's fault. */
static size_t length_of(const uint8_t *record, size_t at, size_t room) {
    return record[at] < room ? record[at] : room;
}

static bool text_fault(const uint8_t *record, const struct kept *kept, size_t at, size_t end, char *words) {
    const size_t found = zeros_end(record, at, end);
    if (found == end)
        return false;
    return SAY("the %s: byte %zu behind it is %02X; 00 is due", kept->name, found, record[found]);
}

static bool name_fault(const uint8_t *record, const struct kept *kept, char *words) {
    const size_t end = kept->at + length_of(record, BOARD_AT_NAME_LENGTH, BOARD_NAME_SIZE);
    for (size_t at = kept->at; at < end; at++) {
        if (!field_allows(&field_name, record[at]))
            return SAY("the %s: byte %zu in it is %02X; 00 to 7F are allowed", kept->name, at, record[at]);
    }
    return text_fault(record, kept, end, kept->at + BOARD_NAME_SIZE, words);
}

static bool model_fault(const uint8_t *record, const struct kept *kept, char *words) {
    const size_t end = kept->at + BOARD_MODEL_SIZE;
    size_t at = kept->at;
    while (at < end && record[at] != 0)
        at++;
    return text_fault(record, kept, at, end, words);
}

/* They may be those of a code, so that their values are not told. */
static bool pending_fault(const uint8_t *record, const struct kept *kept, char *words) {
    const size_t len = length_of(record, BOARD_AT_PENDING_LENGTH, BOARD_PENDING_SIZE);
    const size_t end = kept->at + BOARD_PENDING_SIZE, found = zeros_end(record, kept->at + len, end);
    if (len > 0 && next_piece(record + kept->at, len).kind != PIECE_WAITING)
        return SAY("the %s (from byte %" PRIu32 " on) are none that wait for more", kept->name, kept->at);
    if (found == end)
        return false;
    return SAY("the %s: byte %zu behind them is not 00", kept->name, found);
}

static bool pair_fault(const uint8_t *record, const struct kept *kept, char *words) {
    const size_t end = kept->at + BOARD_PAIR_SIZE;
    const float greatest = float_at(record + kept->at), smallest = float_at(record + kept->at + FLOAT_SIZE);
    char name[80], bytes[40];
    sprintf(name, "the %s (%s)", kept->name, bytes_words(kept->at, BOARD_PAIR_SIZE, bytes));
    if ((record[BOARD_AT_FLAGS] & BOARD_FLAG_READING) == 0)
        return zeros_end(record, kept->at, end) < end && SAY("%s is not zero, and no reading is seen", name);
    if (!isfinite(greatest) || !isfinite(smallest))
        return SAY("%s has a value that is infinite or not a number", name);
    return smallest > greatest && SAY("%s has a smallest value above the greatest", name);
}

/* clang-format off */
static const struct field length_name    = {NULL, FORM_UNSIGNED, 1, 1, 0, BOARD_NAME_SIZE, false, NULL, NULL};
static const struct field length_pending = {NULL, FORM_UNSIGNED, 1, 1, 0, BOARD_PENDING_MOST, false, NULL, NULL};

/* Every field but the code, which may be any. */
static const struct kept fields[] = {
    {BOARD_AT_LENGTH,         "length",                  NULL,            length_fault},
    {BOARD_AT_VERSION,        "version",                 NULL,            version_fault},
    {BOARD_AT_FLAGS,          "flags",                   NULL,            bits_fault},
    {BOARD_AT_TRIES,          "tries",                   NULL,            tries_fault},
    {BOARD_AT_POWER,          "Classic power",           &field_power,    number_fault},
    {BOARD_AT_STEP,           "LE power step",           &field_step,     number_fault},
    {BOARD_AT_MODE,           "mode",                    &field_mode,     number_fault},
    {BOARD_AT_ON_OFF,         "on/off state",            &field_on_off,   number_fault},
    {BOARD_AT_INPUT_TYPE(2),  "input type of channel 2", &field_type,     number_fault},
    {BOARD_AT_INPUT_TYPE(3),  "input type of channel 3", &field_type,     number_fault},
    {BOARD_AT_INPUT_TYPE(4),  "input type of channel 4", &field_type,     number_fault},
    {BOARD_AT_INPUT_TYPE(5),  "input type of channel 5", &field_type,     number_fault},
    {BOARD_AT_INPUT_TYPE(6),  "input type of channel 6", &field_type,     number_fault},
    {BOARD_AT_OUTPUTS,        "outputs",                 NULL,            bits_fault},
    {BOARD_AT_INTERVAL,       "interval",                &field_interval, number_fault},
    {BOARD_AT_FILTER,         "filter word",             &field_filter,   filter_fault},
    {BOARD_AT_NAME_LENGTH,    "name length",             &length_name,    number_fault},
    {BOARD_AT_NAME,           "name",                    NULL,            name_fault},
    {BOARD_AT_MODEL,          "model",                   NULL,            model_fault},
    {BOARD_AT_PENDING_LENGTH, "pending length",          &length_pending, number_fault},
    {BOARD_AT_PENDING,        "pending bytes",           NULL,            pending_fault},
    {BOARD_AT_PAIR(1),        "pair of channel 1",       NULL,            pair_fault},
    {BOARD_AT_PAIR(2),        "pair of channel 2",       NULL,            pair_fault},
    {BOARD_AT_PAIR(3),        "pair of channel 3",       NULL,            pair_fault},
    {BOARD_AT_PAIR(4),        "pair of channel 4",       NULL,            pair_fault},
    {BOARD_AT_PAIR(5),        "pair of channel 5",       NULL,            pair_fault},
    {BOARD_AT_PAIR(6),        "pair of channel 6",       NULL,            pair_fault},
};
/* clang-format on */

static bool size_fault(size_t len, char *words) {
    if (len > BOARD_RECORD_SIZE)
        return SAY("it has more than %d bytes", BOARD_RECORD_SIZE);
    return SAY("it has %zu byte%s; %d are due", len, len == 1 ? "" : "s", BOARD_RECORD_SIZE);
}

static bool unseen(uint32_t place, const char *where, char *words) {
    snprintf(words, WORDS_MOST, "byte %" PRIu32 " of %s", place, where);
    return false;
}

bool fault_words(const uint8_t *record, size_t len, uint32_t place, char *words) {
    const struct kept *kept = fields, *end = fields + sizeof fields / sizeof *fields;
    while (kept < end && kept->at != place)
        kept++;
    if (kept == end)
        return unseen(place, "the record, where no field starts that can be bad", words);
    if (len != BOARD_RECORD_SIZE)
        return place == BOARD_AT_LENGTH ? size_fault(len, words)
                                        : unseen(place, "a record whose length is wrong", words);
    return kept->fault(record, kept, words) ||
           unseen(place, "the record, where the desk sees no fault", words);
}
