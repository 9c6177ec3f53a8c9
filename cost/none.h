/* A program whose calls do nothing: what it costs is the cost of calling, to be taken off. */
#ifndef NONE_H
#define NONE_H

#include <stddef.h>
#include <stdint.h>

struct none_answer {
    uint32_t result, written, skipped, place;
};

struct none_answer none_factory(uint8_t *record, size_t record_len);
struct none_answer none_power_on(uint8_t *record, size_t record_len);
struct none_answer none_bytes(uint8_t *record, size_t record_len, const uint8_t *input, size_t input_len,
                              uint8_t *output, size_t output_len);
struct none_answer none_samples(uint8_t *record, size_t record_len, const uint8_t *sample, size_t sample_len,
                                uint8_t *output, size_t output_len);

struct none_reading {
    uint32_t result, entries, skipped, unread;
};

struct none_reading none_read(const uint8_t *capture, size_t capture_len, uint32_t *list, size_t list_len);

#endif
