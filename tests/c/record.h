/* The board record as document 01 lays it out, its places counted by hand, and records to start from. */
#ifndef RECORD_H
#define RECORD_H

#include "draw.h"

#include <stdbool.h>

enum {
    AT_FLAGS = 3,
    AT_TRIES = 4,
    AT_CODE = 5,
    AT_POWER = 9,
    AT_STEP = 11,
    AT_MODE = 12,
    AT_ON_OFF = 13,
    AT_INPUTS = 14,
    AT_OUTPUTS = 19,
    AT_INTERVAL = 20,
    AT_FILTER = 21,
    AT_NAME = 25, /* its length; the bytes follow */
    AT_MODEL = 41,
    AT_PENDING = 56,
    AT_PAIRS = 75,
    RECORD_SIZE = 123
};

enum { FLAG_OPEN = 1, FLAG_UNLOCKED = 2, FLAG_SENDING = 4, FLAG_READING = 8 };

enum { TRIES_MOST = 3, CODE_SIZE = 4, TEXT_MOST = 15, PENDING_MOST = 18, CHANNELS = 6, FLOAT_SIZE = 4 };

/* The place of the field of a byte, which is that of its first byte; the code's too, though no code is bad.
 */
size_t place_of(size_t at);

/* Whether a field starts there that may be faulty. */
bool is_place(size_t at);

/* The record that factory has to write. */
extern const uint8_t factory_record[RECORD_SIZE];

/* A field by its name in the tables. A counted one has its length in front; all are zero behind the bytes. */
struct field {
    const char *name;
    size_t at, room;
    bool counted;
};

/* NULL if there is no such field. */
const struct field *field_named(const char *name);

void field_set(uint8_t *record, const struct field *field, const uint8_t *bytes, size_t len);

/* A well-formed record with so many pending bytes; the other fields are drawn from their ranges. */
void draw_record(struct draw *draw, uint8_t *record, size_t pending, bool reading);

/* A float that is no infinity and no not-a-number. */
void draw_finite(struct draw *draw, uint8_t *value);

#endif
