/* The values that commands carry and the record keeps: how each is read, its range and its words. */
#ifndef FIELDS_H
#define FIELDS_H

#include <stdbool.h>
#include <stddef.h>
#include <stdint.h>

/* Input types are those of the channels from 2 on. */
enum { CHANNELS = 6, INPUTS_FROM = 2, OUTPUTS = 4, FLOAT_SIZE = 4 };

/* How the bytes of a field are read. */
enum form { FORM_SIGNED, FORM_UNSIGNED, FORM_FILTER, FORM_TEXT, FORM_CODE, FORM_VERSION, FORM_FLOAT };

/* A field of fewest to most bytes. A number lies in least..greatest; so does each byte of a text. */
struct field {
    const char *name;
    enum form form;
    uint8_t fewest, most;
    int32_t least, greatest;
    bool or_zero;      /* 0 is allowed too */
    const char *unit;  /* NULL, or what follows the value */
    const char *words; /* NULL, or "value words;value words": what single values mean */
};

extern const struct field field_power, field_step, field_mode, field_on_off, field_input, field_type,
    field_output, field_switch, field_interval, field_filter, field_name, field_model, field_model_read,
    field_channel, field_code, field_version, field_lock, field_indicator, field_greatest, field_smallest;

/* Enough for any field in words. */
enum { FIELD_WORDS_MOST = 160 };

/* The number in the bytes of a field, high byte first. */
int64_t field_number(const struct field *field, const uint8_t *bytes, size_t len);

/* Whether a number, or a byte of a text, lies in the field's range. */
bool field_allows(const struct field *field, int64_t number);

/* The value in words; a code stays hidden. */
void field_words(const struct field *field, const uint8_t *bytes, size_t len, char *words);

/* The range in words, such as "-20 to 12" or "0 and 4 to 59". */
void field_range(const struct field *field, char *words);

/* Text between quotes; a byte that does not print is \xNN. */
void quoted_words(const uint8_t *bytes, size_t len, char *words);

/* A 32-bit float, high byte first, with as few digits as tell it from all others. */
float float_at(const uint8_t *bytes);
void float_words(float value, char *words);

#endif
