#include "none.h"

static const struct none_answer nothing = {0, 0, 0, 0};

struct none_answer none_factory(uint8_t *record, size_t record_len) {
    (void)record;
    (void)record_len;
    return nothing;
}

struct none_answer none_power_on(uint8_t *record, size_t record_len) {
    (void)record;
    (void)record_len;
    return nothing;
}

struct none_answer none_bytes(uint8_t *record, size_t record_len, const uint8_t *input, size_t input_len,
                              uint8_t *output, size_t output_len) {
    (void)record;
    (void)record_len;
    (void)input;
    (void)input_len;
    (void)output;
    (void)output_len;
    return nothing;
}

struct none_answer none_samples(uint8_t *record, size_t record_len, const uint8_t *sample, size_t sample_len,
                                uint8_t *output, size_t output_len) {
    return none_bytes(record, record_len, sample, sample_len, output, output_len);
}

struct none_reading none_read(const uint8_t *capture, size_t capture_len, uint32_t *list, size_t list_len) {
    (void)capture;
    (void)capture_len;
    (void)list;
    (void)list_len;
    return (struct none_reading){0, 0, 0, 0};
}
