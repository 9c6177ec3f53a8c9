/*
 * The radio board of a dental imaging chair: four calls over a record of 123 bytes that the caller keeps, and
 * one that reads what a board said. examples/chair.c and examples/capture.c are whole programs.
 *
 * Once, where the chair is made: board_factory, write the practice's code into the record, store it.
 * At each start: load the record, board_power_on.
 * While running: board_bytes as bytes arrive, board_samples as readings are measured.
 * At the desk: board_read on the bytes that came from a board.
 */
#ifndef BOARD_H
#define BOARD_H

#include <stddef.h>
#include <stdint.h>

#ifdef __cplusplus
extern "C" {
#endif

/*
 * WARNING. What a call cannot check and the caller has to see to:
 *   - The buffers of one call must not overlap, not even by a byte.
 *   - A length must be true: the buffer has at least so many bytes, a list at least so many numbers.
 *   - Nobody else writes to a buffer during the call.
 *   - A null pointer is allowed with length 0 only.
 * If one of these is broken, anything may happen. The bytes themselves may be any.
 */

/* This header's version; the packages in pkgconfig/ and cmake/ have the same. */
#define BOARD_VERSION_MAJOR 2
#define BOARD_VERSION_MINOR 0
#define BOARD_VERSION_PATCH 0
#define BOARD_VERSION "2.0.0"

/*
 * An archive with another record than this header's refuses board_factory with BOARD_BAD_RECORD, or leaves
 * another number than this at BOARD_AT_VERSION. Other differences cannot be told: keep the two together.
 */
#define BOARD_RECORD_VERSION 1

/* Sizes in bytes: a record, the longest input, the most bytes pending, a sample, a measuring frame. */
#define BOARD_RECORD_SIZE 123
#define BOARD_INPUT_MOST 4096
#define BOARD_PENDING_MOST 18
#define BOARD_SAMPLE_SIZE 24
#define BOARD_FRAME_SIZE 28

/*
 * The output that board_bytes asks for: 19 times the whole part of (pending + input) / 4.
 * The pending length stands in the record at BOARD_AT_PENDING_LENGTH; BOARD_PENDING_MOST is always enough.
 */
#define BOARD_ROOM(pending, input_len) (19 * (((size_t)(pending) + (size_t)(input_len)) / 4))

/* Enough for board_bytes with any record and any input: 19,532. */
#define BOARD_ROOM_MOST BOARD_ROOM(BOARD_PENDING_MOST, BOARD_INPUT_MOST)

/* Results. The first that applies is returned. */
enum board_result {
    BOARD_DONE = 0,       /* done */
    BOARD_BAD_RECORD = 1, /* record not 123 bytes or not well formed (factory: only the length) */
    BOARD_BAD_LENGTH = 2, /* bytes: input over 4,096; samples: not 24; read: capture over 4,096 */
    BOARD_NO_ROOM = 3,    /* bytes: output shorter than BOARD_ROOM; samples: than 28, also with sending off;
                             read: list of fewer entries than BOARD_ENTRIES */
    BOARD_NOT_FINITE = 4  /* samples: a sample is infinite or not a number */
};

/*
 * What a call over a record returns: a result, bytes written to the output, bytes that the hunt skipped, and
 * where the record is bad. A refusal (any result but BOARD_DONE) has zero counts and has written to no
 * buffer. Output behind the written bytes is unchanged.
 *
 * With BOARD_BAD_RECORD, place is where the first faulty field starts, in record order: one of the BOARD_AT_
 * names below, BOARD_AT_INPUT_TYPE(channel) or BOARD_AT_PAIR(channel). It is the place of the field, not of a
 * byte in it. A record of another length than 123 bytes has its fault at BOARD_AT_LENGTH, which is 0. No code
 * is a fault. With every other result, and from board_factory always, place is 0.
 */
struct board_answer {
    uint32_t result, written, skipped, place;
};

/* Writes a new record over any 123 bytes. */
struct board_answer board_factory(uint8_t *record, size_t record_len);

/*
 * Closes configuration mode, locks, gives three new tries, switches outputs off and sending on, drops pending
 * bytes, pairs and the reading flag. The other fields stay.
 */
struct board_answer board_power_on(uint8_t *record, size_t record_len);

/*
 * Received bytes in, in any cuts, replies out. An unfinished frame waits in the record for the next call.
 * A command that the board refuses is no refusal of the call: the result is BOARD_DONE and the reply tells.
 */
struct board_answer board_bytes(uint8_t *record, size_t record_len, const uint8_t *input, size_t input_len,
                                uint8_t *output, size_t output_len);

/*
 * One reading of channels 1 to 6 in (32-bit floats, high byte first), a measuring frame out if sending is on.
 * With sending off nothing is written, but the reading counts for the pairs.
 */
struct board_answer board_samples(uint8_t *record, size_t record_len, const uint8_t *sample,
                                  size_t sample_len, uint8_t *output, size_t output_len);

/*
 * What a board said. Four numbers of a list are one entry: a reply (head 5n or 6n) or a measuring frame
 * (head 15, status B0). BOARD_ENTRY_ is where a number stands in its entry; those of entry i begin at
 * BOARD_ENTRY_NUMBERS * i.
 */
#define BOARD_ENTRY_HEAD 0   /* the head byte: 50 to 5F, 60 to 6F or 15 */
#define BOARD_ENTRY_STATUS 1 /* the status byte; 0 for a long reply, whose head is 5F or 6F */
#define BOARD_ENTRY_PLACE 2  /* where its data begin in the capture; without data, behind the status */
#define BOARD_ENTRY_COUNT 3  /* its data bytes: 0 to 14, 24, in a long reply 15 to 270 */
#define BOARD_ENTRY_NUMBERS 4

/* The longest capture, and the entries for which board_read wants room: one for every four bytes of it. */
#define BOARD_CAPTURE_MOST 4096
#define BOARD_ENTRIES(capture_len) ((size_t)(capture_len) / 4)

/*
 * What board_read returns: a result, the entries written, the bytes that are no frame, and the bytes at the
 * end that may yet become one. Sizes of frames, skipped and unread bytes add up to the capture.
 */
struct board_reading {
    uint32_t result, entries, skipped, unread;
};

/*
 * Every reply and measuring frame of a capture, in its order. Bytes that are no frame are skipped one at a
 * time, as board_bytes does; an unfinished frame at the end is left unread: give its bytes again with those
 * that follow. Of a capture of whole frames, all that board_bytes and board_samples wrote is read back,
 * nothing skipped. list_len counts numbers; numbers behind the last entry are unchanged.
 */
struct board_reading board_read(const uint8_t *capture, size_t capture_len, uint32_t *list, size_t list_len);

/*
 * The record. It may be read between calls; writing is left to the calls, but for the code.
 * BOARD_AT_ is where a field starts; one without a size has one byte. Numbers are high byte first.
 * In brackets: range and factory value. K: kept by board_power_on.
 */
#define BOARD_AT_LENGTH 0 /* the record's size [123] */
#define BOARD_LENGTH_SIZE 2
#define BOARD_AT_VERSION 2 /* BOARD_RECORD_VERSION [1] */
#define BOARD_AT_FLAGS 3   /* the BOARD_FLAG_ bits, others 0 [factory: sending] */
#define BOARD_AT_TRIES 4   /* wrong codes since the last start [0 to 3, factory 0] */
#define BOARD_AT_CODE 5    /* what command 19 compares with [any bytes, factory 55 53 43 31] K */
#define BOARD_CODE_SIZE 4
#define BOARD_AT_POWER 9 /* Classic power, signed [-20 to 12, factory 12] K */
#define BOARD_POWER_SIZE 2
#define BOARD_AT_STEP 11        /* LE power step [0 to 5, factory 0] K */
#define BOARD_AT_MODE 12        /* 1 Classic [0 to 1, factory 1] K */
#define BOARD_AT_ON_OFF 13      /* on/off state [0 to 2, factory 1] K */
#define BOARD_AT_INPUT_TYPES 14 /* a byte each for channels 2 to 6 [0 to 1, factory 0] K */
#define BOARD_INPUT_TYPES_SIZE 5
#define BOARD_AT_OUTPUTS 19  /* output k is bit k - 1, k = 1 to 4, others 0 [factory 0] */
#define BOARD_AT_INTERVAL 20 /* [0 or 4 to 59, factory 0] K */
#define BOARD_AT_FILTER 21   /* filter word, bits 0 to 5, others 0 [factory 0] K */
#define BOARD_FILTER_SIZE 4
#define BOARD_AT_NAME_LENGTH 25 /* [0 to 15, factory 11] K */
#define BOARD_AT_NAME 26        /* so many bytes up to 7F, zeros behind [factory GSV-6BT_dev] K */
#define BOARD_NAME_SIZE 15
#define BOARD_AT_MODEL 41 /* any bytes up to the first zero, zeros from there [factory empty] K */
#define BOARD_MODEL_SIZE 15
#define BOARD_AT_PENDING_LENGTH 56 /* [0 to 18, factory 0] */
#define BOARD_AT_PENDING 57        /* so many bytes of an unfinished frame, zeros behind */
#define BOARD_PENDING_SIZE 18
#define BOARD_AT_PAIRS 75 /* greatest, smallest for channels 1 to 6, floats; zeros before a reading */
#define BOARD_PAIR_SIZE 8
#define BOARD_PAIRS_SIZE 48

/* Bits of the flags: configuration mode open, unlocked, sending, a reading seen. */
#define BOARD_FLAG_OPEN 1
#define BOARD_FLAG_UNLOCKED 2
#define BOARD_FLAG_SENDING 4
#define BOARD_FLAG_READING 8

/* The Classic power as an int; it is small enough for its low byte. */
#define BOARD_POWER(record) (((record)[BOARD_AT_POWER + 1] ^ 0x80) - 0x80)

/* 1 if output k (1 to 4) is on, else 0. */
#define BOARD_OUTPUT(record, k) ((record)[BOARD_AT_OUTPUTS] >> ((k)-1) & 1)

/* Where the input type of a channel (2 to 6) stands, and the type. */
#define BOARD_AT_INPUT_TYPE(channel) (BOARD_AT_INPUT_TYPES + (channel)-2)
#define BOARD_INPUT_TYPE(record, channel) ((record)[BOARD_AT_INPUT_TYPE(channel)])

/* Where the pair of a channel (1 to 6) starts: its greatest and its smallest value, 4 bytes each. */
#define BOARD_AT_PAIR(channel) (BOARD_AT_PAIRS + BOARD_PAIR_SIZE * ((channel)-1))
#define BOARD_AT_GREATEST(channel) BOARD_AT_PAIR(channel)
#define BOARD_AT_SMALLEST(channel) (BOARD_AT_GREATEST(channel) + 4)

/*
 * The code. Every board fresh from board_factory has the code that the amplifier's manual prints. Copy the
 * practice's own BOARD_CODE_SIZE bytes to BOARD_AT_CODE before delivery; no command changes them. Three wrong
 * codes end the tries until board_power_on: whoever can switch the chair off and on has three more.
 * Whoever can read the record or the store has the code.
 *
 * Storing. The fields marked K have to outlive a power failure: store the record when one of them changed,
 * and before the replies are sent, so that nothing confirmed is lost. A store may be cut in the middle:
 * keep two copies, each with a number and a checksum, and write them in turn (examples/store.c). If neither
 * is whole, say so; a new board_factory would bring back the printed code.
 *
 * Threads. The archive keeps nothing between calls. Calls on different records may run at once, also in an
 * interrupt; two calls on the same record, or with the same output or list, may not.
 *
 * The archive is x86-64 code for the System V calling convention (SSE2, position independent). It calls
 * no other function, takes byte buffers at any alignment, and was measured to use at most 288 bytes of
 * stack (docs/PERFORMANCE.md; reserve 1,024).
 *
 * Another controller. The kit compiles for x86-64 alone. Elsewhere there are two ways, neither proved:
 * compile second/second.c, the same board in plain C11 over the same record, which is compared with the
 * archive on millions of calls; or translate crates/, and compare likewise (tests/c).
 */

#ifdef __cplusplus
}
#endif

#endif
