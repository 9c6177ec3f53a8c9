/* The proved library and the second program behind one shape. */
#ifndef PROGRAMS_H
#define PROGRAMS_H

#include "board.h"

#include <stdbool.h>

/* The calls over a record. */
enum call { CALL_FACTORY, CALL_POWER_ON, CALL_BYTES, CALL_SAMPLES, CALLS };

extern const char *const call_names[CALLS];

/* False if there is no such call. */
bool call_named(const char *name, enum call *call);

/* One call and the buffers lent to it; factory and power-on use the record only. */
struct request {
    enum call call;
    uint8_t *record;
    size_t record_len;
    const uint8_t *input;
    size_t input_len;
    uint8_t *output;
    size_t output_len;
};

enum { PROVED, SECOND, PROGRAMS };

/* The calls over a record behind one function; the reader has no record and another answer. */
struct program {
    const char *name;
    struct board_answer (*run)(const struct request *request);
    struct board_reading (*read)(const uint8_t *capture, size_t capture_len, uint32_t *list, size_t list_len);
};

extern const struct program programs[PROGRAMS];

/* Defines run_NAME over NAME_factory, NAME_power_on, NAME_bytes and NAME_samples, and read_NAME. */
#define DEFINE_CALLS(program)                                                                                \
    static struct board_answer run_##program(const struct request *r) {                                      \
        struct program##_answer a = {99, 99, 99, 99};                                                        \
        switch (r->call) {                                                                                   \
        case CALL_FACTORY:                                                                                   \
            a = program##_factory(r->record, r->record_len);                                                 \
            break;                                                                                           \
        case CALL_POWER_ON:                                                                                  \
            a = program##_power_on(r->record, r->record_len);                                                \
            break;                                                                                           \
        case CALL_BYTES:                                                                                     \
            a = program##_bytes(r->record, r->record_len, r->input, r->input_len, r->output, r->output_len); \
            break;                                                                                           \
        case CALL_SAMPLES:                                                                                   \
            a = program##_samples(r->record, r->record_len, r->input, r->input_len, r->output,               \
                                  r->output_len);                                                            \
            break;                                                                                           \
        case CALLS:                                                                                          \
            break;                                                                                           \
        }                                                                                                    \
        return (struct board_answer){a.result, a.written, a.skipped, a.place};                               \
    }                                                                                                        \
    static struct board_reading read_##program(const uint8_t *capture, size_t capture_len, uint32_t *list,   \
                                               size_t list_len) {                                            \
        const struct program##_reading r = program##_read(capture, capture_len, list, list_len);             \
        return (struct board_reading){r.result, r.entries, r.skipped, r.unread};                             \
    }

#endif
