/* A radio board as four calls over a lent record of 123 bytes, and a reader of what a board sends. */
#ifndef SECOND_H
#define SECOND_H

#include <stddef.h>
#include <stdint.h>

#ifdef __cplusplus
extern "C" {
#endif

/*
 * The answer of every call over a record.
 *
 * result   0 done
 *          1 record of a wrong length or not well formed (factory looks at the length only)
 *          2 input longer than 4096 bytes, or sample not 24 bytes
 *          3 not enough room in the output
 *          4 a sample that is infinite or not a number
 * written  bytes put at the start of the output
 * skipped  bytes that the hunt passed over (bytes call only, otherwise 0)
 * place    with result 1 where the first faulty field of the record starts, otherwise 0
 *
 * If several refusals apply, the lowest number is the answer. Any result other than 0 comes with both counts
 * 0 and with every buffer as it was. Output bytes from `written` on are never touched.
 *
 * The places are 0 for a wrong length of the buffer or in the record, then 2 version, 3 flags, 4 tries,
 * 9 power, 11 LE step, 12 mode, 13 on/off, 14 to 18 input types, 19 outputs, 20 interval, 21 filter word,
 * 25 name length, 26 name bytes, 41 model, 56 pending length, 57 pending bytes, 75, 83, .. 115 pairs.
 *
 * The buffers of one call must not overlap. A pointer may be null where its length is 0.
 */
struct second_answer {
    uint32_t result, written, skipped, place;
};

/* Writes a new record over whatever the 123 bytes held. */
struct second_answer second_factory(uint8_t *record, size_t record_len);

/* Brings a record to its state after a power cycle: closed, locked, sending, nothing pending, no reading. */
struct second_answer second_power_on(uint8_t *record, size_t record_len);

/*
 * Hunts for frames in the pending bytes followed by the input, carries each out and writes its reply.
 * The output needs 19 bytes for every whole 4 bytes of pending and input together.
 */
struct second_answer second_bytes(uint8_t *record, size_t record_len, const uint8_t *input, size_t input_len,
                                  uint8_t *output, size_t output_len);

/*
 * Takes one reading of six channels, each a float of 4 bytes with the high byte first.
 * The output needs 28 bytes, even when sending is off and nothing is written.
 */
struct second_answer second_samples(uint8_t *record, size_t record_len, const uint8_t *sample,
                                    size_t sample_len, uint8_t *output, size_t output_len);

/*
 * The answer of the reader.
 *
 * result   0 done
 *          2 capture longer than 4096 bytes
 *          3 list of fewer entries than the whole part of the capture's bytes / 4
 * entries  entries put at the start of the list
 * skipped  bytes that belong to no frame
 * unread   bytes at the end that may yet become a frame
 *
 * A refusal comes with the other counts 0 and with the list as it was. Numbers of the list behind the last
 * entry are never touched.
 */
struct second_reading {
    uint32_t result, entries, skipped, unread;
};

/*
 * Finds the replies (heads 5n and 6n) and the measuring frames (head 15, status B0) of a capture.
 * An entry is four numbers: head, status (0 for a long reply, whose third byte belongs to its length), place
 * of the first data byte (without data the place behind the status) and number of data bytes. The list has
 * room for the whole part of list_len / 4 entries.
 */
struct second_reading second_read(const uint8_t *capture, size_t capture_len, uint32_t *list,
                                  size_t list_len);

#ifdef __cplusplus
}
#endif

#endif
