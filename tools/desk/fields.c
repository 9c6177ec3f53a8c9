#include "fields.h"

#include <stdio.h>
#include <stdlib.h>
#include <string.h>

/* clang-format off */
const struct field field_power      = {"Classic power", FORM_SIGNED, 2, 2, -20, 12, false, NULL, NULL};
const struct field field_step       = {"LE power step", FORM_SIGNED, 1, 1, 0, 5, false, NULL,
                                       "0 7 dBm;1 2 dBm;2 -3 dBm;3 -8 dBm;4 -13 dBm;5 -18 dBm"};
const struct field field_mode       = {"mode", FORM_SIGNED, 1, 1, 0, 1, false, NULL, "0 LE;1 Classic"};
const struct field field_on_off     = {"on/off state", FORM_SIGNED, 1, 1, 0, 2, false, NULL,
                                       "0 off;1 on;2 automatic"};
const struct field field_input      = {"channel", FORM_SIGNED, 1, 1, 2, 6, false, NULL, NULL};
const struct field field_type       = {"input type", FORM_SIGNED, 1, 1, 0, 1, false, NULL,
                                       "0 strain gauge;1 single-ended"};
const struct field field_output     = {"output", FORM_SIGNED, 1, 1, 1, 4, false, NULL, NULL};
const struct field field_switch     = {"switch", FORM_SIGNED, 1, 1, 0, 1, false, NULL, "0 off;1 on"};
const struct field field_interval   = {"interval", FORM_SIGNED, 1, 1, 4, 59, true, " seconds", "0 counted in minutes"};
const struct field field_filter     = {"filter word", FORM_FILTER, 4, 4, 0, 0x3F, false, NULL, NULL};
const struct field field_name       = {"name", FORM_TEXT, 0, 15, 0, 0x7F, false, NULL, NULL};
const struct field field_model      = {"model", FORM_TEXT, 1, 15, 0, 0xFF, false, NULL, NULL};
const struct field field_model_read = {"model", FORM_TEXT, 1, 15, 0, 0xFF, false,
                                       ", 00 behind it if it is shorter than 15", NULL};
const struct field field_channel    = {"channel", FORM_UNSIGNED, 1, 1, 1, 6, false, NULL, NULL};
const struct field field_code       = {"code", FORM_CODE, 4, 4, 0, 0xFF, false, NULL, NULL};
const struct field field_version    = {"version", FORM_VERSION, 2, 2, 0, 0x7FFF, false, ", 00 14", NULL};
const struct field field_lock       = {"lock", FORM_UNSIGNED, 1, 1, 0, 8, false, NULL, "0 locked;8 unlocked"};
const struct field field_indicator  = {"00", FORM_UNSIGNED, 1, 1, 0, 0, false, NULL, NULL};
const struct field field_greatest   = {"greatest", FORM_FLOAT, 4, 4, 0, 0, false, NULL, NULL};
const struct field field_smallest   = {"smallest", FORM_FLOAT, 4, 4, 0, 0, false, NULL, NULL};
/* clang-format on */

int64_t field_number(const struct field *field, const uint8_t *bytes, size_t len) {
    int64_t number = 0;
    for (size_t i = 0; i < len; i++)
        number = number * 256 + bytes[i];
    if (field->form == FORM_SIGNED && len > 0 && bytes[0] >= 0x80)
        number -= (int64_t)1 << (8 * len);
    return number;
}

bool field_allows(const struct field *field, int64_t number) {
    return (field->or_zero && number == 0) || (field->least <= number && number <= field->greatest);
}

float float_at(const uint8_t *bytes) {
    const uint32_t bits =
        (uint32_t)bytes[0] << 24 | (uint32_t)bytes[1] << 16 | (uint32_t)bytes[2] << 8 | bytes[3];
    float value;
    memcpy(&value, &bits, sizeof value);
    return value;
}

void float_words(float value, char *words) {
    enum { DIGITS_ENOUGH = 9 };
    for (int digits = 1; digits <= DIGITS_ENOUGH; digits++) {
        snprintf(words, FIELD_WORDS_MOST, "%.*g", digits, (double)value);
        const float back = strtof(words, NULL);
        if (memcmp(&back, &value, sizeof value) == 0)
            return;
    }
}

void quoted_words(const uint8_t *bytes, size_t len, char *words) {
    char *to = words;
    *to++ = '"';
    for (size_t i = 0; i < len; i++) {
        if (bytes[i] >= ' ' && bytes[i] <= '~' && bytes[i] != '"' && bytes[i] != '\\')
            *to++ = (char)bytes[i];
        else
            to += sprintf(to, "\\x%02X", bytes[i]);
    }
    strcpy(to, "\"");
}

/* The four bytes, and the channels whose filter is on. */
static void filter_words(const uint8_t *bytes, char *words) {
    int found = 0;
    char *to = words + sprintf(words, "%02X %02X %02X %02X (on: ", bytes[0], bytes[1], bytes[2], bytes[3]);
    for (int bit = 0; bit < CHANNELS; bit++) {
        if ((bytes[3] >> bit & 1) != 0)
            to += sprintf(to, "%s%d", found++ == 0 ? "channel " : ", ", bit + 1);
    }
    strcpy(to, found == 0 ? "none)" : ")");
}

/* Finds "number words;" among the words of a field; their length is 0 if there are none. */
static const char *single_words(const struct field *field, int64_t number, size_t *len) {
    *len = 0;
    for (const char *at = field->words; at != NULL && *at != '\0';) {
        char *words;
        const long long single = strtoll(at, &words, 10);
        const size_t end = strcspn(at, ";");
        if (single == number) {
            *len = (size_t)(at + end - words) - 1;
            return words + 1;
        }
        at += end + (at[end] == ';');
    }
    return NULL;
}

static void number_words(const struct field *field, int64_t number, char *words) {
    size_t len;
    const char *single = single_words(field, number, &len);
    if (single != NULL)
        snprintf(words, FIELD_WORDS_MOST, "%lld (%.*s)", (long long)number, (int)len, single);
    else
        snprintf(words, FIELD_WORDS_MOST, "%lld%s", (long long)number,
                 field->unit == NULL ? "" : field->unit);
}

void field_words(const struct field *field, const uint8_t *bytes, size_t len, char *words) {
    switch (field->form) {
    case FORM_TEXT:
        quoted_words(bytes, len, words);
        break;
    case FORM_CODE:
        strcpy(words, "a code");
        break;
    case FORM_FILTER:
        filter_words(bytes, words);
        break;
    case FORM_VERSION:
        snprintf(words, FIELD_WORDS_MOST, "%d.%d", bytes[0], bytes[1]);
        break;
    case FORM_FLOAT:
        float_words(float_at(bytes), words);
        break;
    default:
        number_words(field, field_number(field, bytes, len), words);
    }
}

void field_range(const struct field *field, char *words) {
    const char *zero = field->or_zero ? "0 and " : "";
    if (field->form == FORM_TEXT)
        sprintf(words, "bytes %02X to %02X", (unsigned)field->least, (unsigned)field->greatest);
    else if (field->form == FORM_CODE)
        strcpy(words, "any");
    else if (field->form == FORM_FILTER)
        strcpy(words, "bits 0 to 5");
    else
        sprintf(words, "%s%d to %d", zero, (int)field->least, (int)field->greatest);
}
