/* Stands between the desk and the library, and between the desk and the disk. LIE names what goes wrong. */
#define _POSIX_C_SOURCE 200809L
#include "board.h"

#include <errno.h>
#include <stdbool.h>
#include <stdio.h>
#include <stdlib.h>
#include <string.h>

struct board_answer __real_board_bytes(uint8_t *record, size_t record_len, const uint8_t *input,
                                       size_t input_len, uint8_t *output, size_t output_len);
struct board_answer __wrap_board_bytes(uint8_t *record, size_t record_len, const uint8_t *input,
                                       size_t input_len, uint8_t *output, size_t output_len);
struct board_answer __real_board_samples(uint8_t *record, size_t record_len, const uint8_t *sample,
                                         size_t sample_len, uint8_t *output, size_t output_len);
struct board_answer __wrap_board_samples(uint8_t *record, size_t record_len, const uint8_t *sample,
                                         size_t sample_len, uint8_t *output, size_t output_len);
struct board_answer __real_board_power_on(uint8_t *record, size_t record_len);
struct board_answer __wrap_board_power_on(uint8_t *record, size_t record_len);
struct board_answer __real_board_factory(uint8_t *record, size_t record_len);
struct board_answer __wrap_board_factory(uint8_t *record, size_t record_len);
struct board_reading __real_board_read(const uint8_t *capture, size_t capture_len, uint32_t *list,
                                       size_t list_len);
struct board_reading __wrap_board_read(const uint8_t *capture, size_t capture_len, uint32_t *list,
                                       size_t list_len);
int __real_fsync(int file);
int __wrap_fsync(int file);
int __real_rename(const char *from, const char *to);
int __wrap_rename(const char *from, const char *to);

static bool lie(const char *name) {
    const char *lie = getenv("LIE");
    return lie != NULL && strcmp(lie, name) == 0;
}

/* Where a lie says that a good record is bad. */
static bool lied_place(uint32_t *place) {
    static const struct {
        const char *name;
        uint32_t place;
    } lies[] = {{"bad record", BOARD_AT_LENGTH},  {"a bad mode", BOARD_AT_MODE},
                {"a bad pair", BOARD_AT_PAIR(6)}, {"a bad code", BOARD_AT_CODE},
                {"no field", BOARD_AT_POWER + 1}, {"a far field", UINT32_MAX}};
    for (size_t i = 0; i < sizeof lies / sizeof *lies; i++) {
        *place = lies[i].place;
        if (lie(lies[i].name))
            return true;
    }
    return false;
}

/* Not the library lies here: the record goes bad while the desk is at work. */
static void wear(uint8_t *record) {
    if (lie("a worn version"))
        record[BOARD_AT_VERSION] = BOARD_RECORD_VERSION + 1;
    if (lie("a worn pair"))
        record[BOARD_AT_PAIR(6)] = 1;
}

/* The desk's own calls of one frame have nothing skipped, so these lies are about the board's call alone. */
struct board_answer __wrap_board_bytes(uint8_t *record, size_t record_len, const uint8_t *input,
                                       size_t input_len, uint8_t *output, size_t output_len) {
    enum { STATUS = 2, REPLY = 4 };
    uint32_t place;
    if (input_len > 0)
        wear(record);
    struct board_answer answer = __real_board_bytes(record, record_len, input, input_len, output, output_len);
    if (input_len == 0 && lied_place(&place))
        answer = (struct board_answer){BOARD_BAD_RECORD, 0, 0, place};
    if (answer.written > 0 && lie("every status"))
        output[STATUS] = 0x40;
    if (answer.skipped > 0 && lie("a status"))
        output[STATUS] = 0x40;
    if (answer.skipped > 0 && lie("a record"))
        record[BOARD_AT_STEP] ^= 1;
    if (answer.skipped > 0 && lie("a reply more")) {
        memcpy(output + answer.written, output, REPLY);
        answer.written += REPLY;
    }
    if (answer.skipped > 0 && lie("a reply less"))
        answer.written = 0;
    if (answer.skipped > 0 && lie("skipped"))
        answer.skipped++;
    return answer;
}

struct board_answer __wrap_board_samples(uint8_t *record, size_t record_len, const uint8_t *sample,
                                         size_t sample_len, uint8_t *output, size_t output_len) {
    wear(record);
    return __real_board_samples(record, record_len, sample, sample_len, output, output_len);
}

struct board_answer __wrap_board_power_on(uint8_t *record, size_t record_len) {
    wear(record);
    return __real_board_power_on(record, record_len);
}

struct board_answer __wrap_board_factory(uint8_t *record, size_t record_len) {
    if (lie("no factory"))
        return (struct board_answer){BOARD_BAD_RECORD, 0, 0, 0};
    return __real_board_factory(record, record_len);
}

/* For a capture that has one frame in it, something before it and something behind it. */
struct board_reading __wrap_board_read(const uint8_t *capture, size_t capture_len, uint32_t *list,
                                       size_t list_len) {
    struct board_reading reading = __real_board_read(capture, capture_len, list, list_len);
    if (lie("no reading"))
        reading = (struct board_reading){BOARD_NO_ROOM, 0, 0, 0};
    if (lie("many entries"))
        reading.entries = (uint32_t)list_len;
    if (lie("an entry less"))
        reading.entries--;
    if (lie("a head"))
        list[BOARD_ENTRY_HEAD] = 0x60;
    if (lie("a status of an entry"))
        list[BOARD_ENTRY_STATUS] = 0x40;
    if (lie("a place"))
        list[BOARD_ENTRY_PLACE]++;
    if (lie("a far place"))
        list[BOARD_ENTRY_PLACE] = UINT32_MAX;
    if (lie("a count"))
        list[BOARD_ENTRY_COUNT]++;
    if (lie("bytes skipped"))
        reading.skipped++;
    if (lie("bytes unread"))
        reading.unread++;
    if (lie("nothing unread"))
        reading.unread = 0;
    return reading;
}

int __wrap_fsync(int file) {
    if (lie("nothing"))
        fputs("to the disk\n", stderr);
    return __real_fsync(file);
}

int __wrap_rename(const char *from, const char *to) {
    if (lie("nothing"))
        fputs("to its name\n", stderr);
    if (!lie("rename"))
        return __real_rename(from, to);
    errno = EIO;
    return -1;
}
