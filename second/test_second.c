#include "second.h"

#include <math.h>
#include <stdbool.h>
#include <stdio.h>
#include <stdlib.h>
#include <string.h>

enum { RECORD = 123, ROOM = 20000, CANARY = 0xC3 };

/* Offsets are counted out here by hand so that a slip in the library's own layout shows. */
enum {
    AT_FLAGS = 3,
    AT_TRIES = 4,
    AT_CODE = 5,
    AT_POWER = 9,
    AT_LE = 11,
    AT_MODE = 12,
    AT_ON_OFF = 13,
    AT_TYPES = 14,
    AT_OUTPUTS = 19,
    AT_INTERVAL = 20,
    AT_FILTER = 21,
    AT_NAME_LEN = 25,
    AT_NAME = 26,
    AT_MODEL = 41,
    AT_PENDING_LEN = 56,
    AT_PENDING = 57,
    AT_PAIRS = 75
};

enum { OPEN = 1, UNLOCKED = 2, SENDING = 4, SEEN = 8 };

enum { AMPLIFIER = 0x90, BT121 = 0xA0 };

static unsigned long passed, failed;

static void check(bool good, int line, const char *text) {
    if (good) {
        passed++;
        return;
    }
    failed++;
    printf("line %d: %s\n", line, text);
}

#define CHECK(condition) check((condition), __LINE__, #condition)

static void check_bytes(const uint8_t *seen, size_t seen_len, const uint8_t *wanted, size_t wanted_len,
                        int line, const char *text) {
    const bool good = seen_len == wanted_len && (seen_len == 0 || memcmp(seen, wanted, seen_len) == 0);
    check(good, line, text);
    if (good)
        return;
    printf("  seen  ");
    for (size_t i = 0; i < seen_len; i++)
        printf(" %02X", seen[i]);
    printf("\n  wanted");
    for (size_t i = 0; i < wanted_len; i++)
        printf(" %02X", wanted[i]);
    printf("\n");
}

static unsigned nibble(char c) { return (unsigned)(c <= '9' ? c - '0' : c - 'A' + 10); }

static size_t hex(const char *text, uint8_t *bytes) {
    size_t len = 0;
    for (; *text != '\0'; text++) {
        if (*text == ' ')
            continue;
        bytes[len++] = (uint8_t)(nibble(text[0]) << 4 | nibble(text[1]));
        text++;
    }
    return len;
}

/* Blocks of the exact length let the address checker see any byte read or written outside. */
static uint8_t *block(const uint8_t *bytes, size_t len) {
    uint8_t *copy = malloc(len == 0 ? 1 : len);
    if (copy == NULL)
        exit(2);
    if (len > 0 && bytes != NULL)
        memcpy(copy, bytes, len);
    if (len > 0 && bytes == NULL)
        memset(copy, CANARY, len);
    return copy;
}

enum call { CALL_FACTORY, CALL_POWER_ON, CALL_BYTES, CALL_SAMPLES };

static uint8_t last_output[ROOM];

/* Makes a call on exact blocks and checks everything that holds for every call. */
static struct second_answer make_call(enum call call, uint8_t *record, size_t record_len,
                                      const uint8_t *given, size_t given_len, size_t output_len) {
    uint8_t *board = block(record, record_len);
    uint8_t *input = block(given, given_len);
    uint8_t *output = block(NULL, output_len);
    struct second_answer answer = {99, 99, 99, 99};
    switch (call) {
    case CALL_FACTORY:
        answer = second_factory(board, record_len);
        break;
    case CALL_POWER_ON:
        answer = second_power_on(board, record_len);
        break;
    case CALL_BYTES:
        answer = second_bytes(board, record_len, input, given_len, output, output_len);
        break;
    case CALL_SAMPLES:
        answer = second_samples(board, record_len, input, given_len, output, output_len);
        break;
    }
    CHECK(answer.result <= 4);
    CHECK(answer.place == 0 || (answer.result == 1 && call != CALL_FACTORY && record_len == RECORD));
    CHECK(given_len == 0 || given == NULL || memcmp(input, given, given_len) == 0);
    bool behind_unchanged = answer.written <= output_len;
    for (size_t i = answer.written; i < output_len; i++)
        behind_unchanged = behind_unchanged && output[i] == CANARY;
    CHECK(behind_unchanged);
    if (answer.result != 0) {
        CHECK(answer.written == 0 && answer.skipped == 0);
        CHECK(record_len == 0 || memcmp(board, record, record_len) == 0);
    }
    if (answer.written <= ROOM)
        memcpy(last_output, output, answer.written <= output_len ? answer.written : 0);
    if (record_len > 0)
        memcpy(record, board, record_len);
    free(board);
    free(input);
    free(output);
    return answer;
}

static size_t room_for(const uint8_t *record, size_t input_len) {
    return 19 * ((record[AT_PENDING_LEN] + input_len) / 4);
}

static struct second_answer feed(uint8_t *record, const uint8_t *input, size_t len) {
    return make_call(CALL_BYTES, record, RECORD, input, len, room_for(record, len));
}

static void factory(uint8_t *record) {
    memset(record, 0xEE, RECORD);
    CHECK(make_call(CALL_FACTORY, record, RECORD, NULL, 0, 0).result == 0);
}

static void expect_at(uint8_t *record, const char *input, const char *output, uint32_t skipped, int line) {
    uint8_t given[512], wanted[512];
    const size_t given_len = hex(input, given);
    const size_t wanted_len = hex(output, wanted);
    const struct second_answer answer = feed(record, given, given_len);
    check(answer.result == 0, line, "result 0");
    check(answer.skipped == skipped, line, "skipped count");
    check_bytes(last_output, answer.written, wanted, wanted_len, line, input);
}

#define EXPECT(record, input, output, skipped) expect_at(record, input, output, skipped, __LINE__)

#define FACTORY_RECORD(record)                                                                               \
    uint8_t record[RECORD];                                                                                  \
    factory(record)

#define OPEN_RECORD(record)                                                                                  \
    FACTORY_RECORD(record);                                                                                  \
    EXPECT(record, "AA A0 E0 85", "AA 62 00 00 14 85", 0)

struct reply {
    uint8_t status;
    size_t len;
    uint8_t data[15];
};

/* Sends one command as a whole frame and checks what holds for every reply. */
static struct reply send(uint8_t *record, unsigned part, unsigned number, const uint8_t *parameters,
                         size_t count) {
    uint8_t frame[19] = {0xAA, (uint8_t)(part | count), (uint8_t)number};
    uint8_t before[RECORD];
    if (count > 0)
        memcpy(frame + 3, parameters, count);
    frame[3 + count] = 0x85;
    memcpy(before, record, RECORD);
    const struct second_answer answer = feed(record, frame, 4 + count);
    struct reply reply = {0xFF, 0, {0}};
    CHECK(answer.result == 0 && answer.skipped == 0);
    CHECK(answer.written >= 4 && answer.written <= 19);
    reply.status = last_output[2];
    reply.len = (size_t)answer.written - 4;
    CHECK(last_output[0] == 0xAA && last_output[3 + reply.len] == 0x85);
    CHECK(last_output[1] == ((part == BT121 ? 0x60 : 0x50) | reply.len));
    memcpy(reply.data, last_output + 3, reply.len);
    if (reply.status != 0) {
        CHECK(reply.len == 0);
        if (reply.status == 0x62 && number == 0x19 && record[AT_TRIES] == before[AT_TRIES] + 1)
            before[AT_TRIES]++;
        CHECK(memcmp(before, record, RECORD) == 0);
    }
    return reply;
}

static uint8_t status_of(uint8_t *record, unsigned part, unsigned number, const char *parameters) {
    uint8_t bytes[16];
    const size_t count = hex(parameters, bytes);
    return send(record, part, number, bytes, count).status;
}

static void data_at(uint8_t *record, unsigned part, unsigned number, const char *parameters,
                    const char *wanted, int line) {
    uint8_t bytes[16], data[16];
    const size_t count = hex(parameters, bytes);
    const size_t wanted_len = hex(wanted, data);
    const struct reply reply = send(record, part, number, bytes, count);
    check(reply.status == 0, line, "status 00");
    check_bytes(reply.data, reply.len, data, wanted_len, line, "reply data");
}

#define DATA(record, part, number, parameters, wanted)                                                       \
    data_at(record, part, number, parameters, wanted, __LINE__)

static void field_at(const uint8_t *record, size_t at, const char *wanted, int line) {
    uint8_t bytes[64];
    const size_t len = hex(wanted, bytes);
    check_bytes(record + at, len, bytes, len, line, "field");
}

#define FIELD(record, at, wanted) field_at(record, at, wanted, __LINE__)

static const char good_sample[] = "3F800000 40000000 C0400000 00000000 80000000 7F7FFFFF";

static struct second_answer take(uint8_t *record, const char *text) {
    uint8_t sample[24];
    hex(text, sample);
    return make_call(CALL_SAMPLES, record, RECORD, sample, 24, 28);
}

enum { NOWHERE = 999 };

/* Where the record is bad. All calls that judge it must agree about that. */
static unsigned fault_of(const uint8_t *record) {
    uint8_t copy[RECORD], sample[24];
    hex(good_sample, sample);
    memcpy(copy, record, RECORD);
    const struct second_answer power_on = make_call(CALL_POWER_ON, copy, RECORD, NULL, 0, 0);
    memcpy(copy, record, RECORD);
    const struct second_answer bytes = make_call(CALL_BYTES, copy, RECORD, NULL, 0, 76);
    memcpy(copy, record, RECORD);
    const struct second_answer samples = make_call(CALL_SAMPLES, copy, RECORD, sample, 24, 28);
    CHECK(power_on.result <= 1 && power_on.result == bytes.result && power_on.result == samples.result);
    CHECK(power_on.place == bytes.place && power_on.place == samples.place);
    return power_on.result == 0 ? NOWHERE : power_on.place;
}

static bool accepted(const uint8_t *record) { return fault_of(record) == NOWHERE; }

static void test_factory(void) {
    static const char wanted[] = "007B 01 04 00 55534331 000C 00 01 01 0000000000 00 00 00000000"
                                 "0B 4753562D3642545F646576 00000000"
                                 "000000000000000000000000000000"
                                 "00 000000000000000000000000000000000000"
                                 "000000000000000000000000000000000000000000000000"
                                 "000000000000000000000000000000000000000000000000";
    uint8_t bytes[RECORD + 1], record[RECORD + 1];
    CHECK(hex(wanted, bytes) == RECORD);
    for (unsigned fill = 0; fill < 256; fill++) {
        memset(record, (int)fill, sizeof record);
        const struct second_answer answer = make_call(CALL_FACTORY, record, RECORD, NULL, 0, 0);
        CHECK(answer.result == 0 && answer.written == 0 && answer.skipped == 0);
        check_bytes(record, RECORD, bytes, RECORD, __LINE__, "factory record");
    }
    CHECK(accepted(record));
    CHECK(make_call(CALL_FACTORY, record, 0, NULL, 0, 0).result == 1);
    CHECK(make_call(CALL_FACTORY, record, RECORD - 1, NULL, 0, 0).result == 1);
    CHECK(make_call(CALL_FACTORY, record, RECORD + 1, NULL, 0, 0).result == 1);
    CHECK(second_factory(NULL, 0).result == 1);
}

static void test_power_on(void) {
    FACTORY_RECORD(record);
    EXPECT(record, "AA 94 19 55 53 43 31 85 AA 94 19 00 00 00 00 85", "AA 50 00 85 AA 50 62 85", 0);
    EXPECT(record, "AA 9F 1C 41 42 43 44 45 46 47 48 49 4A 4B 4C 4D 4E 4F 85", "AA 50 00 85", 0);
    EXPECT(record, "AA 94 52 00 00 00 3F 85 AA 90 23 85", "AA 50 00 85 AA 50 00 85", 0);
    CHECK(take(record, good_sample).written == 0);
    EXPECT(record, "AA A0 E0 85", "AA 62 00 00 14 85", 0);
    EXPECT(record, "AA A2 E3 FF EC 85 AA A1 E5 05 85 AA A1 E7 00 85 AA A1 EE 02 85 AA A2 EB 04 01 85",
           "AA 60 00 85 AA 60 00 85 AA 60 00 85 AA 60 00 85 AA 60 00 85", 0);
    EXPECT(record, "AA A2 F1 03 01 85 AA A1 F2 3B 85 AA A1 E9 5A 85", "AA 60 00 85 AA 60 00 85 AA 60 00 85",
           0);
    EXPECT(record, "AA 9F 01 02", "", 0);
    uint8_t wanted[RECORD];
    memcpy(wanted, record, RECORD);
    CHECK(record[AT_FLAGS] == (OPEN | UNLOCKED | SEEN) && record[AT_TRIES] == 1);
    CHECK(record[AT_OUTPUTS] == 4 && record[AT_PENDING_LEN] == 4);
    wanted[AT_FLAGS] = SENDING;
    wanted[AT_TRIES] = 0;
    wanted[AT_OUTPUTS] = 0;
    memset(wanted + AT_PENDING_LEN, 0, RECORD - AT_PENDING_LEN);
    const struct second_answer answer = make_call(CALL_POWER_ON, record, RECORD, NULL, 0, 0);
    CHECK(answer.result == 0 && answer.written == 0 && answer.skipped == 0);
    check_bytes(record, RECORD, wanted, RECORD, __LINE__, "record after power-on");
    CHECK(make_call(CALL_POWER_ON, record, RECORD, NULL, 0, 0).result == 0);
    check_bytes(record, RECORD, wanted, RECORD, __LINE__, "power-on twice is power-on once");
    FIELD(record, AT_POWER, "FFEC 05 00 02 0000010000 00 3B 0000003F 01 5A");
    EXPECT(record, "AA 9F 01 02 03 04 05 06 07 08 09 0A 0B 0C 0D 0E 0F 10", "", 0);
    take(record, "BF800001 BF800002 BF800003 BF800004 BF800005 BF800006");
    CHECK(record[AT_PENDING + 17] == 0x10 && record[RECORD - 1] == 0x06);
    CHECK(make_call(CALL_POWER_ON, record, RECORD, NULL, 0, 0).result == 0);
    check_bytes(record, RECORD, wanted, RECORD, __LINE__, "power-on with every pending byte and pair in use");
    CHECK(make_call(CALL_POWER_ON, record, 0, NULL, 0, 0).result == 1);
    CHECK(make_call(CALL_POWER_ON, record, RECORD - 1, NULL, 0, 0).result == 1);
    CHECK(second_power_on(NULL, 0).result == 1);
}

static void test_bench_examples(void) {
    {
        FACTORY_RECORD(record);
        EXPECT(record, "AA 90 23 85", "AA 50 00 85", 0);
        CHECK(record[AT_FLAGS] == 0);
    }
    {
        FACTORY_RECORD(record);
        EXPECT(record, "AA A0 ED 85", "AA 60 62 85", 0);
    }
    static const struct {
        const char *input, *output;
        uint8_t power[2];
    } open_rows[] = {
        {"AA A2 E3 00 0C 85", "AA 60 00 85", {0x00, 0x0C}},
        {"AA A2 E3 00 0D 85", "AA 60 54 85", {0x00, 0x0C}},
        {"AA A2 E3 FF EC 85", "AA 60 00 85", {0xFF, 0xEC}},
        {"AA A2 E3 FF EB 85", "AA 60 55 85", {0x00, 0x0C}},
        {"AA A2 E3 01 00 85", "AA 60 54 85", {0x00, 0x0C}},
        {"AA A1 E2 0C 85", "AA 60 5B 85", {0x00, 0x0C}},
        {"AA A2 EB 01 02 85", "AA 60 55 85", {0x00, 0x0C}},
    };
    for (size_t i = 0; i < sizeof open_rows / sizeof *open_rows; i++) {
        OPEN_RECORD(record);
        EXPECT(record, open_rows[i].input, open_rows[i].output, 0);
        CHECK(memcmp(record + AT_POWER, open_rows[i].power, 2) == 0);
        FIELD(record, AT_TYPES, "0000000000");
    }
    {
        FACTORY_RECORD(record);
        EXPECT(record, "AA 94 19 55 53 43 31 85", "AA 50 00 85", 0);
        CHECK(record[AT_FLAGS] == (SENDING | UNLOCKED) && record[AT_TRIES] == 0);
    }
    {
        FACTORY_RECORD(record);
        EXPECT(record,
               "AA 94 19 55 53 43 32 85 AA 94 19 00 53 43 31 85 AA 94 19 31 43 53 55 85"
               "AA 94 19 55 53 43 31 85",
               "AA 50 62 85 AA 50 62 85 AA 50 62 85 AA 50 62 85", 0);
        CHECK(record[AT_TRIES] == 3 && record[AT_FLAGS] == SENDING);
    }
    {
        FACTORY_RECORD(record);
        EXPECT(record, "AA A4 AA 90 23 85 00 00", "AA 50 00 85", 4);
        CHECK(record[AT_FLAGS] == 0 && record[AT_PENDING_LEN] == 0);
    }
    {
        FACTORY_RECORD(record);
        EXPECT(record, "AA AA 90 23 85", "", 0);
        FIELD(record, AT_PENDING_LEN, "05 AA AA 90 23 85 00 00 00 00 00 00 00 00 00 00 00 00 00");
        CHECK(record[AT_FLAGS] == SENDING);
    }
    {
        OPEN_RECORD(record);
        EXPECT(record, "AA A1 F2 03 85", "AA 60 55 85", 0);
        EXPECT(record, "AA A1 F2 04 85", "AA 60 00 85", 0);
        CHECK(record[AT_INTERVAL] == 4);
        EXPECT(record, "AA A1 F2 3B 85", "AA 60 00 85", 0);
        CHECK(record[AT_INTERVAL] == 59);
        EXPECT(record, "AA A1 F2 3C 85", "AA 60 54 85", 0);
        EXPECT(record, "AA A1 F2 FF 85", "AA 60 55 85", 0);
        CHECK(record[AT_INTERVAL] == 59);
    }
    {
        FACTORY_RECORD(record);
        EXPECT(record, "AA 91 53 07 85 AA 91 53 00 85", "AA 50 54 85 AA 50 55 85", 0);
    }
    {
        FACTORY_RECORD(record);
        EXPECT(record, "AA 90 23 85 AA A0 E0 85", "AA 50 00 85 AA 62 00 00 14 85", 0);
        CHECK(record[AT_FLAGS] == OPEN);
    }
    {
        OPEN_RECORD(record);
        EXPECT(record, "AA AB E8 22 47 53 56 2D 36 42 54 5F 64 65 76 85", "", 16);
        CHECK(record[AT_PENDING_LEN] == 0);
    }
}

/* What is expected of every number under either head, typed from the two command lists. */
static const struct {
    unsigned part, number, least, most;
} built[] = {
    {BT121, 0xE0, 0, 0},      {BT121, 0xE1, 0, 0},     {BT121, 0xE2, 0, 0},     {BT121, 0xE3, 2, 2},
    {BT121, 0xE4, 0, 0},      {BT121, 0xE5, 1, 1},     {BT121, 0xE6, 0, 0},     {BT121, 0xE7, 1, 1},
    {BT121, 0xE8, 0, 0},      {BT121, 0xE9, 0, 15},    {BT121, 0xED, 0, 0},     {BT121, 0xEE, 1, 1},
    {BT121, 0xEB, 2, 2},      {BT121, 0xF0, 1, 1},     {BT121, 0xF1, 2, 2},     {BT121, 0xF2, 1, 1},
    {BT121, 0xF3, 0, 0},      {AMPLIFIER, 0x19, 4, 4}, {AMPLIFIER, 0x1A, 0, 0}, {AMPLIFIER, 0x1B, 0, 0},
    {AMPLIFIER, 0x1C, 1, 15}, {AMPLIFIER, 0x23, 0, 0}, {AMPLIFIER, 0x24, 0, 0}, {AMPLIFIER, 0x51, 0, 0},
    {AMPLIFIER, 0x52, 4, 4},  {AMPLIFIER, 0x53, 1, 1},
};

static bool is_known(unsigned part, unsigned number) {
    if (part == BT121)
        return number == 0xEA || number == 0xEC || number == 0xEF;
    return number == 0x17 || number == 0x18 || number == 0x50 || number == 0x54 || number == 0x55;
}

/* 40, 41 and 5B as expected, or 00 where a later cause decides. */
static uint8_t early_status(unsigned part, unsigned number, size_t count) {
    for (size_t i = 0; i < sizeof built / sizeof *built; i++) {
        if (built[i].part == part && built[i].number == number)
            return count < built[i].least || count > built[i].most ? 0x5B : 0x00;
    }
    return is_known(part, number) ? 0x41 : 0x40;
}

/* Every head, number and parameter count, with configuration closed and open, locked and unlocked. */
static void test_early_statuses(void) {
    static const uint8_t high[15] = {0xFF, 0xFF, 0xFF, 0xFF, 0xFF, 0xFF, 0xFF, 0xFF,
                                     0xFF, 0xFF, 0xFF, 0xFF, 0xFF, 0xFF, 0xFF};
    FACTORY_RECORD(base);
    for (unsigned flags = 0; flags < 8; flags++) {
        for (unsigned number = 0; number < 256; number++) {
            for (size_t count = 0; count <= 15; count++) {
                for (unsigned part = AMPLIFIER; part <= BT121; part += 0x10) {
                    uint8_t record[RECORD];
                    memcpy(record, base, RECORD);
                    record[AT_FLAGS] = (uint8_t)flags;
                    const uint8_t seen = send(record, part, number, high, count).status;
                    const uint8_t early = early_status(part, number, count);
                    const bool open = (flags & OPEN) != 0;
                    const bool misses = part == BT121 ? !open && number != 0xE0 : open;
                    if (early != 0)
                        CHECK(seen == early);
                    else if (misses)
                        CHECK(seen == 0x62);
                    else if (number == 0x19 || (number == 0x1C && (flags & UNLOCKED) == 0))
                        CHECK(seen == 0x62);
                    else
                        CHECK(seen != 0x62 && seen != 0x40 && seen != 0x41 && seen != 0x5B);
                }
            }
        }
    }
}

static void test_status_order(void) {
    FACTORY_RECORD(closed);
    CHECK(status_of(closed, BT121, 0x23, "") == 0x40);
    CHECK(status_of(closed, AMPLIFIER, 0xE0, "") == 0x40);
    CHECK(status_of(closed, BT121, 0xF4, "01 02 03") == 0x40);
    CHECK(status_of(closed, BT121, 0xEF, "01 02 03") == 0x41);
    CHECK(status_of(closed, BT121, 0xE5, "06 06") == 0x5B);
    CHECK(status_of(closed, BT121, 0xE5, "06") == 0x62);
    CHECK(status_of(closed, BT121, 0xE5, "FF") == 0x62);
    CHECK(status_of(closed, BT121, 0xE1, "") == 0x62);
    CHECK(status_of(closed, AMPLIFIER, 0x1C, "") == 0x5B);
    CHECK(status_of(closed, AMPLIFIER, 0x1C, "41") == 0x62);
    CHECK(status_of(closed, AMPLIFIER, 0x19, "55 53 43") == 0x5B);
    CHECK(status_of(closed, AMPLIFIER, 0x19, "55 53 43 31 00") == 0x5B);
    CHECK(closed[AT_TRIES] == 0);
    OPEN_RECORD(open);
    CHECK(status_of(open, AMPLIFIER, 0x56, "") == 0x40);
    CHECK(status_of(open, AMPLIFIER, 0x50, "") == 0x41);
    CHECK(status_of(open, AMPLIFIER, 0x53, "") == 0x5B);
    CHECK(status_of(open, AMPLIFIER, 0x53, "07") == 0x62);
    CHECK(status_of(open, AMPLIFIER, 0x53, "00") == 0x62);
    CHECK(status_of(open, AMPLIFIER, 0x52, "FF FF FF FF") == 0x62);
    CHECK(status_of(open, AMPLIFIER, 0x19, "00 00 00 00") == 0x62);
    CHECK(status_of(open, AMPLIFIER, 0x19, "55 53 43 31") == 0x62);
    CHECK(open[AT_TRIES] == 0 && open[AT_FLAGS] == (OPEN | SENDING));
    CHECK(status_of(open, BT121, 0xE5, "FF") == 0x55);
    CHECK(status_of(open, BT121, 0xE5, "06") == 0x54);
    CHECK(status_of(open, BT121, 0xE5, "05") == 0x00);
}

static uint8_t signed_range(unsigned byte, int least, int most) {
    const int value = byte < 128 ? (int)byte : (int)byte - 256;
    if (value > most)
        return 0x54;
    return value < least ? 0x55 : 0x00;
}

static void sweep_set_byte(unsigned number, int most, size_t field, unsigned read_number) {
    OPEN_RECORD(record);
    for (unsigned value = 0; value < 256; value++) {
        const uint8_t parameter = (uint8_t)value;
        const uint8_t before = record[field];
        const uint8_t wanted = signed_range(value, 0, most);
        CHECK(send(record, BT121, number, &parameter, 1).status == wanted);
        CHECK(record[field] == (wanted == 0 ? parameter : before));
        const struct reply reply = send(record, BT121, read_number, NULL, 0);
        CHECK(reply.status == 0 && reply.len == 1 && reply.data[0] == record[field]);
    }
}

static void test_power_command(void) {
    OPEN_RECORD(record);
    DATA(record, BT121, 0xE2, "", "00 0C");
    for (int value = -32768; value <= 32767; value++) {
        const unsigned bits = (unsigned)value & 0xFFFF;
        const uint8_t parameters[2] = {(uint8_t)(bits >> 8), (uint8_t)bits};
        const uint8_t seen = send(record, BT121, 0xE3, parameters, 2).status;
        if (value > 12) {
            CHECK(seen == 0x54);
        } else if (value < -20) {
            CHECK(seen == 0x55);
        } else {
            CHECK(seen == 0x00 && memcmp(record + AT_POWER, parameters, 2) == 0);
            const struct reply reply = send(record, BT121, 0xE2, NULL, 0);
            CHECK(reply.status == 0 && reply.len == 2 && memcmp(reply.data, parameters, 2) == 0);
        }
    }
    FIELD(record, AT_POWER, "000C");
}

static void test_name_command(void) {
    OPEN_RECORD(record);
    DATA(record, BT121, 0xE8, "", "4753562D3642545F646576");
    DATA(record, BT121, 0xE9, "", "");
    FIELD(record, AT_NAME_LEN, "00 000000000000000000000000000000");
    DATA(record, BT121, 0xE8, "", "");
    DATA(record, BT121, 0xE9, "6162636465666768696A6B6C6D6E6F", "");
    DATA(record, BT121, 0xE8, "", "6162636465666768696A6B6C6D6E6F");
    DATA(record, BT121, 0xE9, "00 7F 00", "");
    FIELD(record, AT_NAME_LEN, "03 007F00000000000000000000000000");
    DATA(record, BT121, 0xE8, "", "00 7F 00");
    for (size_t len = 1; len <= 15; len++) {
        for (size_t at = 0; at < len; at++) {
            uint8_t name[15];
            memset(name, 0x7F, sizeof name);
            CHECK(send(record, BT121, 0xE9, name, len).status == 0x00);
            CHECK(record[AT_NAME_LEN] == len && memcmp(record + AT_NAME, name, len) == 0);
            name[at] = 0x80;
            CHECK(send(record, BT121, 0xE9, name, len).status == 0x54);
            name[at] = 0xFF;
            CHECK(send(record, BT121, 0xE9, name, len).status == 0x54);
        }
    }
    CHECK(accepted(record));
}

/* The left parameter decides even when the right one is wrong the other way. */
static void test_place_commands(void) {
    OPEN_RECORD(record);
    for (unsigned place = 0; place < 256; place++) {
        const uint8_t only[1] = {(uint8_t)place};
        const uint8_t wanted = signed_range(place, 2, 6);
        const struct reply reply = send(record, BT121, 0xF0, only, 1);
        CHECK(reply.status == wanted && reply.len == (wanted == 0 ? 1 : 0));
        for (unsigned value = 0; value < 256; value++) {
            const uint8_t both[2] = {(uint8_t)place, (uint8_t)value};
            const uint8_t type_status = signed_range(place, 2, 6);
            const uint8_t output_status = signed_range(place, 1, 4);
            const uint8_t switch_status = signed_range(value, 0, 1);
            CHECK(send(record, BT121, 0xEB, both, 2).status ==
                  (type_status != 0 ? type_status : switch_status));
            CHECK(send(record, BT121, 0xF1, both, 2).status ==
                  (output_status != 0 ? output_status : switch_status));
        }
    }
    FIELD(record, AT_TYPES, "0101010101 0F");
    for (unsigned channel = 2; channel <= 6; channel++) {
        const uint8_t off[2] = {(uint8_t)channel, 0};
        CHECK(send(record, BT121, 0xEB, off, 2).status == 0);
        for (unsigned other = 2; other <= 6; other++) {
            const uint8_t which = (uint8_t)other;
            const struct reply reply = send(record, BT121, 0xF0, &which, 1);
            CHECK(reply.len == 1 && reply.data[0] == (other > channel ? 1 : 0));
            CHECK(record[AT_TYPES + other - 2] == reply.data[0]);
        }
    }
    static const uint8_t after[] = {0x0E, 0x0C, 0x08, 0x00};
    for (unsigned output = 1; output <= 4; output++) {
        const uint8_t off[2] = {(uint8_t)output, 0};
        CHECK(send(record, BT121, 0xF1, off, 2).status == 0 && record[AT_OUTPUTS] == after[output - 1]);
    }
    const uint8_t on[2] = {3, 1};
    CHECK(send(record, BT121, 0xF1, on, 2).status == 0 && record[AT_OUTPUTS] == 0x04);
    CHECK(send(record, BT121, 0xF1, on, 2).status == 0 && record[AT_OUTPUTS] == 0x04);
}

static void test_interval_command(void) {
    OPEN_RECORD(record);
    DATA(record, BT121, 0xF3, "", "00");
    for (unsigned value = 0; value < 256; value++) {
        const uint8_t parameter = (uint8_t)value;
        const uint8_t before = record[AT_INTERVAL];
        const uint8_t seen = send(record, BT121, 0xF2, &parameter, 1).status;
        const bool good = value == 0 || (value >= 4 && value <= 59);
        CHECK(seen == (good ? 0x00 : value >= 60 && value <= 127 ? 0x54 : 0x55));
        CHECK(record[AT_INTERVAL] == (good ? parameter : before));
    }
    DATA(record, BT121, 0xF3, "", "3B");
    DATA(record, BT121, 0xF2, "00", "");
    DATA(record, BT121, 0xF3, "", "00");
}

static void test_configuration_mode(void) {
    FACTORY_RECORD(record);
    CHECK(status_of(record, BT121, 0xE1, "") == 0x62);
    DATA(record, BT121, 0xE0, "", "00 14");
    CHECK(record[AT_FLAGS] == (OPEN | SENDING));
    DATA(record, BT121, 0xE0, "", "00 14");
    CHECK(record[AT_FLAGS] == (OPEN | SENDING));
    CHECK(status_of(record, AMPLIFIER, 0x23, "") == 0x62);
    DATA(record, BT121, 0xE1, "", "");
    CHECK(record[AT_FLAGS] == SENDING);
    CHECK(status_of(record, BT121, 0xE1, "") == 0x62);
    DATA(record, AMPLIFIER, 0x23, "", "");
    CHECK(record[AT_FLAGS] == 0);
    DATA(record, AMPLIFIER, 0x23, "", "");
    DATA(record, AMPLIFIER, 0x24, "", "");
    CHECK(record[AT_FLAGS] == SENDING);
    DATA(record, AMPLIFIER, 0x24, "", "");
    CHECK(record[AT_FLAGS] == SENDING);
}

static void test_code(void) {
    FACTORY_RECORD(record);
    DATA(record, AMPLIFIER, 0x1A, "", "00");
    CHECK(status_of(record, AMPLIFIER, 0x19, "55 53 43 30") == 0x62 && record[AT_TRIES] == 1);
    CHECK(status_of(record, AMPLIFIER, 0x19, "55 53 42 31") == 0x62 && record[AT_TRIES] == 2);
    CHECK(status_of(record, AMPLIFIER, 0x19, "55 53 43 31") == 0x00 && record[AT_TRIES] == 2);
    DATA(record, AMPLIFIER, 0x1A, "", "08");
    CHECK(status_of(record, AMPLIFIER, 0x19, "55 53 43 31") == 0x00 && record[AT_TRIES] == 2);
    CHECK(status_of(record, AMPLIFIER, 0x19, "55 52 43 31") == 0x62 && record[AT_TRIES] == 3);
    DATA(record, AMPLIFIER, 0x1A, "", "08");
    CHECK(status_of(record, AMPLIFIER, 0x19, "55 53 43 31") == 0x62 && record[AT_TRIES] == 3);
    CHECK(status_of(record, AMPLIFIER, 0x19, "00 53 43 31") == 0x62 && record[AT_TRIES] == 3);
    CHECK(status_of(record, AMPLIFIER, 0x1C, "41") == 0x00);
    CHECK((record[AT_FLAGS] & UNLOCKED) != 0);
    FIELD(record, AT_CODE, "55534331");
    hex("00 FF AA 85", record + AT_CODE);
    record[AT_TRIES] = 0;
    record[AT_FLAGS] = 0;
    CHECK(status_of(record, AMPLIFIER, 0x19, "55 53 43 31") == 0x62);
    CHECK(status_of(record, AMPLIFIER, 0x19, "00 FF AA 85") == 0x00);
    CHECK(record[AT_FLAGS] == UNLOCKED && record[AT_TRIES] == 1);
}

static void test_model(void) {
    FACTORY_RECORD(record);
    DATA(record, AMPLIFIER, 0x1B, "", "00");
    CHECK(status_of(record, AMPLIFIER, 0x1C, "41") == 0x62);
    DATA(record, AMPLIFIER, 0x19, "55 53 43 31", "");
    DATA(record, AMPLIFIER, 0x1C, "FF 80 7F 01 02 03 04 05 06 07 08 09 0A 0B 0C", "");
    DATA(record, AMPLIFIER, 0x1B, "", "FF 80 7F 01 02 03 04 05 06 07 08 09 0A 0B 0C");
    DATA(record, AMPLIFIER, 0x1C, "FF 80 7F 01 02 03 04 05 06 07 08 09 0A 0B", "");
    FIELD(record, AT_MODEL, "FF 80 7F 01 02 03 04 05 06 07 08 09 0A 0B 00 00");
    DATA(record, AMPLIFIER, 0x1B, "", "FF 80 7F 01 02 03 04 05 06 07 08 09 0A 0B 00");
    DATA(record, AMPLIFIER, 0x1C, "41 42 00 43 44", "");
    FIELD(record, AT_MODEL, "41 42 00 00 00 00 00 00 00 00 00 00 00 00 00 00");
    DATA(record, AMPLIFIER, 0x1B, "", "41 42 00");
    DATA(record, AMPLIFIER, 0x1C, "43", "");
    DATA(record, AMPLIFIER, 0x1B, "", "43 00");
    DATA(record, AMPLIFIER, 0x1C, "00 41 42", "");
    FIELD(record, AT_MODEL, "00 00 00 00 00 00 00 00 00 00 00 00 00 00 00 00");
    DATA(record, AMPLIFIER, 0x1B, "", "00");
    DATA(record, AMPLIFIER, 0x1C, "01 02 03 04 05 06 07 08 09 0A 0B 0C 0D 0E 00", "");
    DATA(record, AMPLIFIER, 0x1B, "", "01 02 03 04 05 06 07 08 09 0A 0B 0C 0D 0E 00");
    CHECK(accepted(record));
    hex("41 42 43", record + AT_MODEL + 12);
    memset(record + AT_MODEL, 0x41, 12);
    record[AT_FLAGS] = SENDING;
    DATA(record, AMPLIFIER, 0x1B, "", "41 41 41 41 41 41 41 41 41 41 41 41 41 42 43");
}

static void test_filter(void) {
    FACTORY_RECORD(record);
    DATA(record, AMPLIFIER, 0x51, "", "00 00 00 00");
    for (unsigned bit = 0; bit < 32; bit++) {
        const uint32_t word = (uint32_t)1 << bit;
        const uint8_t parameters[4] = {(uint8_t)(word >> 24), (uint8_t)(word >> 16), (uint8_t)(word >> 8),
                                       (uint8_t)word};
        CHECK(send(record, AMPLIFIER, 0x52, parameters, 4).status == (bit <= 5 ? 0x00 : 0x54));
        if (bit <= 5)
            CHECK(memcmp(record + AT_FILTER, parameters, 4) == 0);
    }
    DATA(record, AMPLIFIER, 0x51, "", "00 00 00 20");
    DATA(record, AMPLIFIER, 0x52, "00 00 00 3F", "");
    DATA(record, AMPLIFIER, 0x51, "", "00 00 00 3F");
    CHECK(status_of(record, AMPLIFIER, 0x52, "00 00 00 40") == 0x54);
    CHECK(status_of(record, AMPLIFIER, 0x52, "FF FF FF FF") == 0x54);
    CHECK(status_of(record, AMPLIFIER, 0x52, "3F 00 00 00") == 0x54);
}

static void test_pair_command(void) {
    FACTORY_RECORD(record);
    for (unsigned channel = 0; channel < 256; channel++) {
        const uint8_t parameter = (uint8_t)channel;
        const struct reply reply = send(record, AMPLIFIER, 0x53, &parameter, 1);
        CHECK(reply.status == (channel == 0 ? 0x55 : channel > 6 ? 0x54 : 0x00));
        CHECK(reply.len == (reply.status == 0 ? 9 : 0));
    }
    DATA(record, AMPLIFIER, 0x53, "01", "00 00000000 00000000");
    DATA(record, AMPLIFIER, 0x53, "06", "00 00000000 00000000");
    take(record, "3F800001 3F800002 3F800003 3F800004 3F800005 3F800006");
    take(record, "BF800001 BF800002 BF800003 BF800004 BF800005 BF800006");
    DATA(record, AMPLIFIER, 0x53, "01", "00 3F800001 BF800001");
    DATA(record, AMPLIFIER, 0x53, "02", "00 3F800002 BF800002");
    DATA(record, AMPLIFIER, 0x53, "03", "00 3F800003 BF800003");
    DATA(record, AMPLIFIER, 0x53, "04", "00 3F800004 BF800004");
    DATA(record, AMPLIFIER, 0x53, "05", "00 3F800005 BF800005");
    DATA(record, AMPLIFIER, 0x53, "06", "00 3F800006 BF800006");
}

static void test_hunt(void) {
    {
        FACTORY_RECORD(record);
        EXPECT(record, "", "", 0);
        EXPECT(record, "00 85 90 23 FF", "", 5);
        CHECK(record[AT_PENDING_LEN] == 0);
        EXPECT(record, "AA", "", 0);
        FIELD(record, AT_PENDING_LEN, "01 AA 00");
        EXPECT(record, "", "", 0);
        FIELD(record, AT_PENDING_LEN, "01 AA 00");
        EXPECT(record, "90", "", 0);
        EXPECT(record, "23", "", 0);
        FIELD(record, AT_PENDING_LEN, "03 AA 90 23 00");
        EXPECT(record, "85", "AA 50 00 85", 0);
        FIELD(record, AT_PENDING_LEN, "00 00 00 00 00");
    }
    {
        FACTORY_RECORD(record);
        EXPECT(record, "AA", "", 0);
        EXPECT(record, "00", "", 2);
        CHECK(record[AT_PENDING_LEN] == 0);
        EXPECT(record, "AA 8F AA B0 AA 50 AA 60 AA 15", "", 10);
        EXPECT(record, "AA 90 23 84", "", 4);
        EXPECT(record, "AA 90 23 AA", "", 3);
        FIELD(record, AT_PENDING_LEN, "01 AA 00");
        EXPECT(record, "90 AA 85", "AA 50 40 85", 0);
    }
    {
        /* A failed outer frame gives up one byte, so the frames inside it still count. */
        FACTORY_RECORD(record);
        EXPECT(record, "AA 9F AA 90 23 85 AA 90 24 85 AA 90 1A 85 00 00 00 00", "", 0);
        CHECK(record[AT_PENDING_LEN] == 18);
        CHECK(record[AT_FLAGS] == SENDING);
        EXPECT(record, "00", "AA 50 00 85 AA 50 00 85 AA 51 00 00 85", 7);
        CHECK(record[AT_PENDING_LEN] == 0);
        FIELD(record, AT_PENDING, "00 00 00 00 00 00 00 00 00 00 00 00 00 00 00 00 00 00");
    }
    {
        /* A whole frame may hold prefixes and suffixes among its parameters. */
        FACTORY_RECORD(record);
        EXPECT(record, "AA 9F AA 90 23 85 AA 90 24 85 AA 90 1A 85 00 00 00 00 85", "AA 50 40 85", 0);
        CHECK(record[AT_FLAGS] == SENDING);
        EXPECT(record, "AA 94 19 AA 90 23 85 85", "AA 50 62 85", 0);
        CHECK(record[AT_FLAGS] == SENDING && record[AT_TRIES] == 1);
    }
    {
        /* Pending bytes shrink from the front and the rest joins new input. */
        FACTORY_RECORD(record);
        EXPECT(record, "AA 93 01 AA 9F", "", 0);
        FIELD(record, AT_PENDING_LEN, "05 AA 93 01 AA 9F 00");
        EXPECT(record, "01 02", "", 3);
        FIELD(record, AT_PENDING_LEN, "04 AA 9F 01 02 00 00");
        EXPECT(record, "03 04 05 06 07 08 09 0A 0B 0C 0D 0E 0F 10", "", 0);
        CHECK(record[AT_PENDING_LEN] == 18);
        EXPECT(record, "85 AA", "AA 50 40 85", 0);
        FIELD(record, AT_PENDING_LEN, "01 AA 00 00 00 00");
    }
    {
        FACTORY_RECORD(record);
        EXPECT(record, "AA AA AA AA AA AA AA AA AA AA AA AA AA", "", 0);
        CHECK(record[AT_PENDING_LEN] == 13);
        EXPECT(record, "AA", "", 1);
        CHECK(record[AT_PENDING_LEN] == 13);
        EXPECT(record, "85", "AA 60 40 85", 0);
        CHECK(record[AT_PENDING_LEN] == 0);
    }
    {
        /* Each frame sees what the frames before it have done. */
        FACTORY_RECORD(record);
        EXPECT(record, "AA A0 E4 85 AA A0 E0 85 AA A1 E5 03 85 AA A0 E4 85 AA A0 E1 85 AA A0 E4 85",
               "AA 60 62 85 AA 62 00 00 14 85 AA 60 00 85 AA 61 00 03 85 AA 60 00 85 AA 60 62 85", 0);
    }
    {
        FACTORY_RECORD(record);
        CHECK(second_bytes(record, RECORD, NULL, 0, NULL, 0).result == 0);
        const uint8_t noise[3] = {0xAA, 0x90, 0x23};
        const struct second_answer answer = second_bytes(record, RECORD, noise, 3, NULL, 0);
        CHECK(answer.result == 0 && answer.written == 0 && answer.skipped == 0);
        CHECK(record[AT_PENDING_LEN] == 3);
    }
}

static uint32_t random_state = 0x2545F491;

static uint32_t random_below(uint32_t limit) {
    random_state ^= random_state << 13;
    random_state ^= random_state >> 17;
    random_state ^= random_state << 5;
    return random_state % limit;
}

/* Mostly bytes that matter to the hunt, so that frames, near frames and noise all come up. */
static size_t random_stream(uint8_t *bytes, size_t len) {
    size_t at = 0;
    while (at + 19 <= len) {
        const uint32_t kind = random_below(8);
        if (kind < 4) {
            const size_t row = random_below((uint32_t)(sizeof built / sizeof *built));
            const size_t count =
                built[row].least + random_below((uint32_t)(built[row].most - built[row].least) + 1);
            bytes[at++] = 0xAA;
            bytes[at++] = (uint8_t)(built[row].part | count);
            bytes[at++] = (uint8_t)built[row].number;
            for (size_t i = 0; i < count; i++)
                bytes[at++] = (uint8_t)random_below(random_below(2) == 0 ? 8 : 256);
            bytes[at++] = (uint8_t)(random_below(8) == 0 ? 0x84 : 0x85);
        } else if (kind < 7) {
            static const uint8_t telling[] = {0xAA, 0x90, 0x91, 0x9F, 0xA0, 0xA2, 0xAF, 0x85, 0x23, 0xE0};
            bytes[at++] = telling[random_below(sizeof telling)];
        } else {
            bytes[at++] = (uint8_t)random_below(256);
        }
    }
    return at;
}

/* A plain hunt over one array: how many bytes are skipped, and where the waiting ones start. */
static size_t plain_hunt(const uint8_t *bytes, size_t len, size_t *skipped, size_t *frames) {
    size_t at = 0;
    *skipped = 0;
    *frames = 0;
    while (at < len) {
        bool skip = bytes[at] != 0xAA;
        if (!skip) {
            if (at + 1 == len)
                return at;
            const unsigned high = bytes[at + 1] >> 4;
            skip = high != 9 && high != 10;
            if (!skip) {
                const size_t size = 4u + (bytes[at + 1] & 15u);
                if (at + size > len)
                    return at;
                if (bytes[at + size - 1] == 0x85) {
                    at += size;
                    ++*frames;
                    continue;
                }
            }
        }
        at++;
        ++*skipped;
    }
    return at;
}

/* However a stream is cut, the replies, the skipped bytes and the last record come out the same. */
static void test_cuts(void) {
    static uint8_t bytes[4096], whole[ROOM], pieces[ROOM];
    for (unsigned round = 0; round < 3000; round++) {
        FACTORY_RECORD(at_once);
        uint8_t in_cuts[RECORD];
        memcpy(in_cuts, at_once, RECORD);
        const size_t len = random_stream(bytes, round % 10 == 0 ? 4096 : 400);
        const struct second_answer answer = feed(at_once, bytes, len);
        CHECK(answer.result == 0);
        memcpy(whole, last_output, answer.written);
        size_t skipped, frames, replies = 0;
        const size_t waiting = plain_hunt(bytes, len, &skipped, &frames);
        CHECK(answer.skipped == skipped);
        CHECK(at_once[AT_PENDING_LEN] == len - waiting);
        CHECK(memcmp(at_once + AT_PENDING, bytes + waiting, len - waiting) == 0);
        for (size_t at = 0; at < answer.written; at += 4u + (whole[at + 1] & 15u))
            replies++;
        CHECK(replies == frames);
        size_t at = 0, written = 0, cut_skipped = 0;
        const uint32_t longest = 1 + random_below(40);
        while (at < len) {
            size_t cut = random_below(longest + 1);
            if (cut > len - at)
                cut = len - at;
            const struct second_answer part = feed(in_cuts, bytes + at, cut);
            CHECK(part.result == 0);
            memcpy(pieces + written, last_output, part.written);
            written += part.written;
            cut_skipped += part.skipped;
            at += cut;
        }
        CHECK(cut_skipped == skipped);
        check_bytes(pieces, written, whole, answer.written, __LINE__, "replies of a cut stream");
        check_bytes(in_cuts, RECORD, at_once, RECORD, __LINE__, "record of a cut stream");
        CHECK(accepted(at_once));
    }
}

static void test_room(void) {
    static uint8_t input[4097];
    OPEN_RECORD(record);
    DATA(record, BT121, 0xE9, "6162636465666768696A6B6C6D6E6F", "");
    for (size_t i = 0; i < 4096; i += 4)
        hex("AA A0 E8 85", input + i);
    uint8_t copy[RECORD];
    memcpy(copy, record, RECORD);
    CHECK(make_call(CALL_BYTES, copy, RECORD, input, 4096, 19455).result == 3);
    struct second_answer answer = make_call(CALL_BYTES, copy, RECORD, input, 4096, 19456);
    CHECK(answer.result == 0 && answer.written == 19456 && answer.skipped == 0);
    for (size_t at = 0; at < 19456; at += 19)
        CHECK(memcmp(last_output + at,
                     "\xAA\x6F\x00"
                     "abcdefghijklmno\x85",
                     19) == 0);

    EXPECT(record, "AA 9F 00 00 00 00 00 00 00 00 00 00 00 00 00 00 00 00", "", 0);
    CHECK(record[AT_PENDING_LEN] == 18);
    memcpy(copy, record, RECORD);
    CHECK(make_call(CALL_BYTES, copy, RECORD, NULL, 0, 75).result == 3);
    answer = make_call(CALL_BYTES, copy, RECORD, NULL, 0, 76);
    CHECK(answer.result == 0 && answer.written == 0 && answer.skipped == 0);
    check_bytes(copy, RECORD, record, RECORD, __LINE__, "empty input changes nothing");
    CHECK(make_call(CALL_BYTES, copy, RECORD, input, 4096, 19531).result == 3);
    answer = make_call(CALL_BYTES, copy, RECORD, input, 4096, 19532);
    CHECK(answer.result == 0 && answer.written == 19456 && answer.skipped == 18);

    /* Each length at its exact room and one byte short, with each number of pending bytes. */
    for (size_t pending = 0; pending <= 18; pending++) {
        for (size_t len = 0; len <= 24; len++) {
            FACTORY_RECORD(board);
            static const uint8_t head[18] = {0xAA, 0x9F};
            feed(board, head, pending);
            CHECK(board[AT_PENDING_LEN] == pending);
            const size_t room = 19 * ((pending + len) / 4);
            memset(input, 0, 24);
            if (room > 0)
                CHECK(make_call(CALL_BYTES, board, RECORD, input, len, room - 1).result == 3);
            CHECK(make_call(CALL_BYTES, board, RECORD, input, len, room).result == 0);
        }
    }
}

static void test_call_refusals(void) {
    static uint8_t input[4097];
    uint8_t nan_sample[25] = {0x7F, 0xC0};
    uint8_t long_record[RECORD + 1] = {0};
    FACTORY_RECORD(good);
    memcpy(long_record, good, RECORD);
    uint8_t bad[RECORD];
    memcpy(bad, good, RECORD);
    bad[0] = 1;

    /* Several causes at once: the lowest number answers. */
    CHECK(make_call(CALL_BYTES, bad, RECORD, input, 4097, 0).result == 1);
    CHECK(make_call(CALL_BYTES, good, RECORD, input, 4097, 0).result == 2);
    CHECK(make_call(CALL_BYTES, good, RECORD, input, 4097, ROOM).result == 2);
    CHECK(make_call(CALL_BYTES, good, RECORD, input, 4096, 0).result == 3);
    CHECK(make_call(CALL_BYTES, good, RECORD, input, 4, 18).result == 3);
    CHECK(make_call(CALL_BYTES, good, RECORD, input, 4, 19).result == 0);
    CHECK(second_bytes(good, RECORD, input, SIZE_MAX, NULL, 0).result == 2);
    CHECK(make_call(CALL_SAMPLES, bad, RECORD, nan_sample, 23, 0).result == 1);
    CHECK(make_call(CALL_SAMPLES, good, RECORD, nan_sample, 23, 0).result == 2);
    CHECK(make_call(CALL_SAMPLES, good, RECORD, nan_sample, 25, 28).result == 2);
    CHECK(make_call(CALL_SAMPLES, good, RECORD, nan_sample, 0, 28).result == 2);
    CHECK(make_call(CALL_SAMPLES, good, RECORD, nan_sample, 24, 27).result == 3);
    CHECK(make_call(CALL_SAMPLES, good, RECORD, nan_sample, 24, 0).result == 3);
    CHECK(make_call(CALL_SAMPLES, good, RECORD, nan_sample, 24, 28).result == 4);
    CHECK(make_call(CALL_SAMPLES, good, RECORD, input, 24, 27).result == 3);
    CHECK(make_call(CALL_SAMPLES, good, RECORD, input, 24, 28).result == 0);

    static const size_t wrong[] = {0, 1, 2, 3, 122, 124};
    for (size_t i = 0; i < sizeof wrong / sizeof *wrong; i++) {
        CHECK(make_call(CALL_FACTORY, long_record, wrong[i], NULL, 0, 0).result == 1);
        CHECK(make_call(CALL_POWER_ON, long_record, wrong[i], NULL, 0, 0).result == 1);
        CHECK(make_call(CALL_BYTES, long_record, wrong[i], input, 4, 19).result == 1);
        CHECK(make_call(CALL_SAMPLES, long_record, wrong[i], input, 24, 28).result == 1);
    }
    CHECK(second_bytes(NULL, 0, NULL, 0, NULL, 0).result == 1);
    CHECK(second_samples(NULL, 0, NULL, 0, NULL, 0).result == 1);

    /* Room is asked for even where nothing would be sent. */
    FACTORY_RECORD(silent);
    EXPECT(silent, "AA 90 23 85", "AA 50 00 85", 0);
    CHECK(make_call(CALL_SAMPLES, silent, RECORD, input, 24, 27).result == 3);
    CHECK(make_call(CALL_SAMPLES, silent, RECORD, input, 24, 28).result == 0);
}

static void sweep(const uint8_t *base, size_t at, unsigned least, unsigned most, unsigned also) {
    uint8_t record[RECORD];
    memcpy(record, base, RECORD);
    for (unsigned value = 0; value < 256; value++) {
        record[at] = (uint8_t)value;
        CHECK(accepted(record) == ((value >= least && value <= most) || value == also));
    }
}

static void test_well_formed_fields(void) {
    FACTORY_RECORD(base);
    sweep(base, 0, 0, 0, 0);
    sweep(base, 1, 0x7B, 0x7B, 0x7B);
    sweep(base, 2, 1, 1, 1);
    sweep(base, AT_FLAGS, 0, 15, 0);
    sweep(base, AT_TRIES, 0, 3, 0);
    for (size_t i = 0; i < 4; i++)
        sweep(base, AT_CODE + i, 0, 255, 0);
    sweep(base, AT_LE, 0, 5, 0);
    sweep(base, AT_MODE, 0, 1, 0);
    sweep(base, AT_ON_OFF, 0, 2, 0);
    for (size_t i = 0; i < 5; i++)
        sweep(base, AT_TYPES + i, 0, 1, 0);
    sweep(base, AT_OUTPUTS, 0, 15, 0);
    sweep(base, AT_INTERVAL, 4, 59, 0);
    for (size_t i = 0; i < 3; i++)
        sweep(base, AT_FILTER + i, 0, 0, 0);
    sweep(base, AT_FILTER + 3, 0, 0x3F, 0);
    sweep(base, AT_NAME_LEN, 11, 15, 11);
    for (size_t i = 0; i < 11; i++)
        sweep(base, AT_NAME + i, 0, 0x7F, 0);
    for (size_t i = 11; i < 15; i++)
        sweep(base, AT_NAME + i, 0, 0, 0);
    sweep(base, AT_MODEL, 0, 255, 0);
    for (size_t i = 1; i < 15; i++)
        sweep(base, AT_MODEL + i, 0, 0, 0);
    sweep(base, AT_PENDING_LEN, 0, 0, 0);
    for (size_t i = 0; i < 18; i++)
        sweep(base, AT_PENDING + i, 0, 0, 0);
    for (size_t i = 0; i < 48; i++)
        sweep(base, AT_PAIRS + i, 0, 0, 0);

    for (int power = -30; power <= 20; power++) {
        uint8_t record[RECORD];
        memcpy(record, base, RECORD);
        record[AT_POWER] = power < 0 ? 0xFF : 0x00;
        record[AT_POWER + 1] = (uint8_t)power;
        CHECK(accepted(record) == (power >= -20 && power <= 12));
    }
    sweep(base, AT_POWER, 0, 0, 0);
    static const struct {
        const char *power;
        bool good;
    } powers[] = {{"000C", true},  {"000D", false}, {"FFEC", true},  {"FFEB", false}, {"0C00", false},
                  {"7FFF", false}, {"8000", false}, {"00FF", false}, {"00EC", false}, {"FFFF", true}};
    for (size_t i = 0; i < sizeof powers / sizeof *powers; i++) {
        uint8_t record[RECORD];
        memcpy(record, base, RECORD);
        hex(powers[i].power, record + AT_POWER);
        CHECK(accepted(record) == powers[i].good);
    }
}

static void test_well_formed_texts(void) {
    FACTORY_RECORD(base);
    uint8_t record[RECORD];
    for (unsigned len = 0; len < 256; len++) {
        memcpy(record, base, RECORD);
        memset(record + AT_NAME, 0, 15);
        memset(record + AT_NAME, 0x7F, len < 15 ? len : 15);
        record[AT_NAME_LEN] = (uint8_t)len;
        CHECK(accepted(record) == (len <= 15));
        if (len >= 1 && len <= 15) {
            record[AT_NAME + len - 1] = 0x80;
            CHECK(!accepted(record));
            record[AT_NAME + len - 1] = 0;
            CHECK(accepted(record));
        }
        if (len < 15) {
            record[AT_NAME + len] = 1;
            CHECK(!accepted(record));
            record[AT_NAME + len] = 0;
            record[AT_NAME + 14] = 1;
            CHECK(!accepted(record));
        }
    }
    for (size_t len = 0; len <= 15; len++) {
        memcpy(record, base, RECORD);
        memset(record + AT_MODEL, 0xFF, len);
        CHECK(accepted(record));
        for (size_t at = len + 1; at < 15; at++) {
            record[AT_MODEL + at] = 1;
            CHECK(!accepted(record));
            record[AT_MODEL + at] = 0;
        }
        if (len >= 2) {
            record[AT_MODEL + len - 2] = 0;
            CHECK(!accepted(record));
        }
    }
}

static void test_well_formed_pending(void) {
    FACTORY_RECORD(base);
    uint8_t record[RECORD];
    for (unsigned head = 0; head < 256; head++) {
        for (unsigned len = 0; len <= 20; len++) {
            memcpy(record, base, RECORD);
            record[AT_PENDING_LEN] = (uint8_t)len;
            for (unsigned i = 0; i < len && i < 18; i++)
                record[AT_PENDING + i] = (uint8_t)(i == 0 ? 0xAA : i == 1 ? head : 0x80 + i);
            const bool good_head = head >= 0x90 && head <= 0xAF;
            const bool good = len <= 1 || (good_head && len <= 18 && len < 4 + (head & 15));
            CHECK(accepted(record) == good);
            if (!good)
                continue;
            for (unsigned i = len; i < 18; i++) {
                record[AT_PENDING + i] = 0xAA;
                CHECK(!accepted(record));
                record[AT_PENDING + i] = 0;
            }
            if (len > 0) {
                record[AT_PENDING] = 0xAB;
                CHECK(!accepted(record));
                record[AT_PENDING] = 0;
                CHECK(!accepted(record));
            }
        }
    }
    memcpy(record, base, RECORD);
    hex("AA AF", record + AT_PENDING);
    for (unsigned len = 0; len < 256; len++) {
        record[AT_PENDING_LEN] = (uint8_t)len;
        CHECK(accepted(record) == (len >= 2 && len <= 18));
    }
}

static void test_well_formed_pairs(void) {
    static const struct {
        const char *pair;
        bool good;
    } rows[] = {
        {"00000000 00000000", true},  {"00000000 80000000", true},  {"80000000 00000000", true},
        {"80000000 80000000", true},  {"3F800000 3F800000", true},  {"3F800000 3F7FFFFF", true},
        {"3F7FFFFF 3F800000", false}, {"BF800000 3F800000", false}, {"3F800000 BF800000", true},
        {"BF800000 BF800001", true},  {"BF800001 BF800000", false}, {"00000001 80000001", true},
        {"80000001 00000001", false}, {"00000000 00000001", false}, {"80000000 00000001", false},
        {"80000001 00000000", false}, {"00000001 80000000", true},  {"7F7FFFFF FF7FFFFF", true},
        {"FF7FFFFF 7F7FFFFF", false}, {"7F7FFFFF 7F7FFFFF", true},  {"FF7FFFFF FF7FFFFF", true},
        {"7F800000 00000000", false}, {"00000000 FF800000", false}, {"7F800000 FF800000", false},
        {"7F800000 7F800000", false}, {"FF800000 FF800000", false}, {"7FC00000 00000000", false},
        {"00000000 7FC00000", false}, {"7F800001 00000000", false}, {"00000000 FF800001", false},
        {"FFFFFFFF FFFFFFFF", false}, {"7FFFFFFF 00000000", false}, {"00000000 FFC00000", false},
    };
    FACTORY_RECORD(record);
    record[AT_FLAGS] = SENDING | SEEN;
    CHECK(accepted(record));
    for (size_t channel = 0; channel < 6; channel++) {
        uint8_t *pair = record + AT_PAIRS + 8 * channel;
        for (size_t i = 0; i < sizeof rows / sizeof *rows; i++) {
            hex(rows[i].pair, pair);
            CHECK(accepted(record) == rows[i].good);
            uint8_t unseen[RECORD];
            memcpy(unseen, record, RECORD);
            unseen[AT_FLAGS] = SENDING;
            CHECK(accepted(unseen) == (i == 0));
        }
        memset(pair, 0, 8);
    }
}

/* The fields that can be faulty, in record order; the code is none. */
static const unsigned places[] = {0,  2,  3,  4,  9,  11, 12, 13, 14, 15, 16, 17,  18, 19,
                                  20, 21, 25, 26, 41, 56, 57, 75, 83, 91, 99, 107, 115};

static unsigned field_of(size_t at) {
    unsigned found = 0;
    for (size_t i = 0; i < sizeof places / sizeof *places && places[i] <= at; i++)
        found = places[i];
    return found;
}

/* One byte of a good record is changed: a length or a flag in its range spoils a later field, if any. */
static unsigned spoilt_by(size_t at, uint8_t value) {
    if (at == AT_NAME_LEN && value <= 15)
        return AT_NAME;
    if (at == AT_PENDING_LEN && value <= 18)
        return AT_PENDING;
    if (at == AT_FLAGS && value <= 15)
        return AT_PAIRS;
    return field_of(at);
}

static void check_changes(const uint8_t *base) {
    uint8_t record[RECORD];
    CHECK(accepted(base));
    memcpy(record, base, RECORD);
    for (size_t at = 0; at < RECORD; at++) {
        for (unsigned value = 0; value < 256; value++) {
            record[at] = (uint8_t)value;
            const unsigned fault = fault_of(record);
            CHECK(fault == NOWHERE || fault == spoilt_by(at, (uint8_t)value));
            CHECK(fault == NOWHERE || at < AT_CODE || at >= AT_POWER);
        }
        record[at] = base[at];
    }
}

static void test_places_of_changes(void) {
    FACTORY_RECORD(record);
    check_changes(record);
    EXPECT(record, "AA 94 19 55 53 43 31 85 AA 93 1C 4B 36 44 85", "AA 50 00 85 AA 50 00 85", 0);
    take(record, good_sample);
    take(record, "BF800000 C0000000 C0400000 3F800000 BF800000 00000000");
    EXPECT(record, "AA A5 E3 00", "", 0);
    check_changes(record);
}

/* A fault and the place that it has, over the record of test_places_in_order. */
struct fault {
    unsigned place;
    size_t at;
    const char *bytes;
};

static const struct fault faults[] = {
    {0, 0, "01"},           {0, 1, "7C"},           {0, 0, "7B00"},         {2, 2, "00"},
    {2, 2, "02"},           {3, 3, "1C"},           {3, 3, "80"},           {4, 4, "04"},
    {9, 9, "000D"},         {9, 9, "FFEB"},         {9, 9, "01"},           {11, 11, "06"},
    {12, 12, "02"},         {13, 13, "03"},         {14, 14, "02"},         {15, 15, "FF"},
    {16, 16, "02"},         {17, 17, "80"},         {18, 18, "02"},         {19, 19, "10"},
    {20, 20, "03"},         {20, 20, "3C"},         {21, 21, "01"},         {21, 23, "01"},
    {21, 24, "40"},         {25, 25, "10"},         {25, 25, "FF"},         {26, 25, "0A"},
    {26, 26, "80"},         {26, 36, "80"},         {26, 37, "01"},         {26, 40, "01"},
    {41, 41, "00"},         {41, 55, "01"},         {56, 56, "13"},         {56, 56, "FF"},
    {57, 56, "00"},         {57, 56, "03"},         {57, 56, "09"},         {57, 57, "AB"},
    {57, 58, "B5"},         {57, 58, "A0"},         {57, 61, "01"},         {57, 74, "01"},
    {75, 75, "7F800000"},   {75, 79, "7F7FFFFF"},   {83, 83, "FFC00000"},   {83, 87, "FF800000"},
    {91, 91, "FF7FFFFF"},   {91, 95, "00000001"},   {99, 99, "7FFFFFFF"},   {99, 103, "3F800001"},
    {107, 107, "7F800001"}, {107, 111, "00000001"}, {115, 115, "FF800000"}, {115, 119, "7FC00000"},
};

enum { FAULTS = sizeof faults / sizeof *faults };

static void put_fault(uint8_t *record, size_t i) { hex(faults[i].bytes, record + faults[i].at); }

/* Every fault alone and every two: that of the earlier field is told, whatever the code. */
static void test_places_in_order(void) {
    FACTORY_RECORD(base);
    EXPECT(base, "AA 94 19 55 53 43 31 85 AA 93 1C 4B 36 44 85", "AA 50 00 85 AA 50 00 85", 0);
    take(base, "00000000 00000000 80000000 3F800000 00000000 00000000");
    EXPECT(base, "AA A5 E3 01", "", 0);
    uint8_t record[RECORD];
    for (size_t i = 0; i < FAULTS; i++) {
        memcpy(record, base, RECORD);
        put_fault(record, i);
        CHECK(fault_of(record) == faults[i].place);
        hex("FF00AA85", record + AT_CODE);
        CHECK(fault_of(record) == faults[i].place);
        for (size_t later = i + 1; later < FAULTS; later++) {
            memcpy(record, base, RECORD);
            put_fault(record, later);
            put_fault(record, i);
            CHECK(faults[later].place == faults[i].place || fault_of(record) == faults[i].place);
        }
    }
}

/* Without a reading each pair that is not all zero is a fault of its own. */
static void test_places_without_reading(void) {
    FACTORY_RECORD(record);
    for (size_t at = RECORD; at-- > AT_PAIRS;) {
        record[at] = 1;
        CHECK(fault_of(record) == field_of(at));
    }
    record[AT_FLAGS] |= SEEN;
    CHECK(fault_of(record) == NOWHERE);
}

/* A buffer of another length is place 0, whatever else is wrong and for factory too. */
static void test_places_of_lengths(void) {
    static uint8_t input[24];
    uint8_t record[200];
    for (unsigned filling = 0; filling < 256; filling += 0x55) {
        for (size_t len = 0; len <= sizeof record; len++) {
            memset(record, (int)filling, sizeof record);
            if (len == RECORD)
                continue;
            for (int call = CALL_FACTORY; call <= CALL_SAMPLES; call++) {
                const struct second_answer answer =
                    make_call((enum call)call, record, len, input, sizeof input, 114);
                CHECK(answer.result == 1 && answer.place == 0);
            }
        }
    }
}

/* Two readings of one channel: both zeros in both orders, and steps over the ends of the subnormals. */
static void test_second_readings(void) {
    static const struct {
        const char *first, *then, *pair;
    } rows[] = {
        {"00000000", "80000000", "00000000 00000000"}, {"80000000", "00000000", "80000000 80000000"},
        {"00000000", "00000001", "00000001 00000000"}, {"00000001", "00000000", "00000001 00000000"},
        {"80000000", "00000001", "00000001 80000000"}, {"00000001", "80000000", "00000001 80000000"},
        {"00000000", "80000001", "00000000 80000001"}, {"80000001", "00000000", "00000000 80000001"},
        {"80000000", "80000001", "80000000 80000001"}, {"80000001", "80000000", "80000000 80000001"},
        {"80000001", "00000001", "00000001 80000001"}, {"00000001", "80000001", "00000001 80000001"},
        {"007FFFFF", "00800000", "00800000 007FFFFF"}, {"00800000", "007FFFFF", "00800000 007FFFFF"},
        {"807FFFFF", "80800000", "807FFFFF 80800000"}, {"80800000", "807FFFFF", "807FFFFF 80800000"},
    };
    for (size_t i = 0; i < sizeof rows / sizeof *rows; i++) {
        for (size_t channel = 0; channel < 6; channel++) {
            FACTORY_RECORD(record);
            uint8_t sample[24] = {0};
            hex(rows[i].first, sample + 4 * channel);
            CHECK(make_call(CALL_SAMPLES, record, RECORD, sample, 24, 28).result == 0);
            hex(rows[i].then, sample + 4 * channel);
            CHECK(make_call(CALL_SAMPLES, record, RECORD, sample, 24, 28).result == 0);
            FIELD(record, AT_PAIRS + 8 * channel, rows[i].pair);
        }
    }
}

static void test_samples(void) {
    static const char frame[] = "AA 15 B0 3F800000 40000000 C0400000 00000000 80000000 7F7FFFFF 85";
    uint8_t wanted[28];
    CHECK(hex(frame, wanted) == 28);
    {
        FACTORY_RECORD(record);
        uint8_t expected[RECORD];
        memcpy(expected, record, RECORD);
        expected[AT_FLAGS] = SENDING | SEEN;
        hex("3F800000 3F800000 40000000 40000000 C0400000 C0400000 00000000 00000000 80000000 80000000"
            "7F7FFFFF 7F7FFFFF",
            expected + AT_PAIRS);
        const struct second_answer answer = take(record, good_sample);
        CHECK(answer.result == 0 && answer.written == 28 && answer.skipped == 0);
        check_bytes(last_output, 28, wanted, 28, __LINE__, "measuring frame");
        check_bytes(record, RECORD, expected, RECORD, __LINE__, "record after the first reading");
        CHECK(take(record, good_sample).written == 28);
        check_bytes(record, RECORD, expected, RECORD, __LINE__, "equal reading changes nothing");
    }
    {
        /* With sending off the reading still counts. */
        FACTORY_RECORD(record);
        EXPECT(record, "AA 90 23 85", "AA 50 00 85", 0);
        const struct second_answer answer = take(record, good_sample);
        CHECK(answer.result == 0 && answer.written == 0 && answer.skipped == 0);
        CHECK(record[AT_FLAGS] == SEEN);
        FIELD(record, AT_PAIRS, "3F800000 3F800000 40000000 40000000");
        EXPECT(record, "AA 90 24 85", "AA 50 00 85", 0);
        CHECK(take(record, good_sample).written == 28);
    }
    {
        /* Configuration mode has no say in sending, and pending bytes stay. */
        OPEN_RECORD(record);
        EXPECT(record, "AA 90 23", "", 0);
        CHECK(take(record, good_sample).written == 28);
        FIELD(record, AT_PENDING_LEN, "03 AA 90 23 00");
        CHECK(record[AT_FLAGS] == (OPEN | SENDING | SEEN));
    }
    {
        FACTORY_RECORD(record);
        take(record, "80000000 00000000 80000000 00000000 00000001 80000001");
        take(record, "00000000 80000000 80000000 00000000 00000000 80000000");
        FIELD(record, AT_PAIRS,
              "80000000 80000000 00000000 00000000 80000000 80000000 00000000 00000000"
              "00000001 00000000 80000000 80000001");
        take(record, "00000001 80000001 3F800000 BF800000 00000002 80000002");
        FIELD(record, AT_PAIRS,
              "00000001 80000000 00000000 80000001 3F800000 80000000 00000000 BF800000"
              "00000002 00000000 80000000 80000002");
    }
    {
        /* Negative numbers order against their bytes, and each channel goes its own way. */
        FACTORY_RECORD(record);
        take(record, "BF800000 BF800000 3F800000 3F800000 FF7FFFFF 7F7FFFFF");
        take(record, "BF800001 BF7FFFFF 3F800001 3F7FFFFF 7F7FFFFF FF7FFFFF");
        FIELD(record, AT_PAIRS,
              "BF800000 BF800001 BF7FFFFF BF800000 3F800001 3F800000 3F800000 3F7FFFFF"
              "7F7FFFFF FF7FFFFF 7F7FFFFF FF7FFFFF");
        take(record, "BF800000 BF800000 3F800000 3F800000 00000000 80000000");
        FIELD(record, AT_PAIRS,
              "BF800000 BF800001 BF7FFFFF BF800000 3F800001 3F800000 3F800000 3F7FFFFF"
              "7F7FFFFF FF7FFFFF 7F7FFFFF FF7FFFFF");
    }
    static const char *const not_finite[] = {"7F800000", "FF800000", "7FC00000", "FFC00000",
                                             "7F800001", "FF800001", "7FFFFFFF", "FFFFFFFF"};
    static const char *const just_finite[] = {"7F7FFFFF", "FF7FFFFF", "7F000000", "00800000"};
    for (size_t channel = 0; channel < 6; channel++) {
        for (unsigned flags = 0; flags < 16; flags++) {
            FACTORY_RECORD(record);
            record[AT_FLAGS] = (uint8_t)flags;
            uint8_t sample[24] = {0};
            for (size_t i = 0; i < sizeof not_finite / sizeof *not_finite; i++) {
                hex(not_finite[i], sample + 4 * channel);
                CHECK(make_call(CALL_SAMPLES, record, RECORD, sample, 24, 28).result == 4);
            }
            for (size_t i = 0; i < sizeof just_finite / sizeof *just_finite; i++) {
                hex(just_finite[i], sample + 4 * channel);
                const struct second_answer answer = make_call(CALL_SAMPLES, record, RECORD, sample, 24, 28);
                CHECK(answer.result == 0 && answer.written == ((flags & SENDING) != 0 ? 28 : 0));
                CHECK(record[AT_FLAGS] == (flags | SEEN));
            }
        }
    }
}

/* What finite bits stand for; the smallest is a normal double, so that no float mode takes it for zero. */
static double value_of(const uint8_t *bytes) {
    const int exponent = (bytes[0] & 0x7F) << 1 | bytes[1] >> 7;
    const int fraction = (bytes[1] & 0x7F) << 16 | bytes[2] << 8 | bytes[3];
    const double size = exponent == 0 ? ldexp(fraction, -149) : ldexp(fraction + 0x800000, exponent - 150);
    return (bytes[0] & 0x80) != 0 ? -size : size;
}

static bool is_finite(const uint8_t *bytes) { return !((bytes[0] | 0x80) == 0xFF && bytes[1] >= 0x80); }

/* Either any float, or one that differs from a kept one in a single byte, to try every byte's weight. */
static void random_float(uint8_t *bytes, const uint8_t *kept) {
    for (size_t i = 0; i < 4; i++)
        bytes[i] = (uint8_t)random_below(256);
    if (random_below(8) == 0)
        return;
    const size_t at = random_below(4);
    const uint8_t changed = bytes[at];
    memcpy(bytes, kept, 4);
    bytes[at] = random_below(2) == 0 ? changed : (uint8_t)(bytes[at] + random_below(3) + 255);
}

/* Pairs follow the plain order, and a record that calls have left is one that every call accepts. */
static void test_random_samples(void) {
    FACTORY_RECORD(record);
    for (unsigned round = 0; round < 20000; round++) {
        uint8_t sample[24], wanted[RECORD];
        bool all_finite = true;
        memcpy(wanted, record, RECORD);
        for (size_t channel = 0; channel < 6; channel++) {
            uint8_t *pair = wanted + AT_PAIRS + 8 * channel;
            uint8_t *given = sample + 4 * channel;
            random_float(given, pair + 4 * random_below(2));
            all_finite = all_finite && is_finite(given);
            if ((record[AT_FLAGS] & SEEN) == 0 || value_of(given) > value_of(pair))
                memcpy(pair, given, 4);
            if ((record[AT_FLAGS] & SEEN) == 0 || value_of(given) < value_of(pair + 4))
                memcpy(pair + 4, given, 4);
        }
        wanted[AT_FLAGS] |= SEEN;
        if (!all_finite)
            memcpy(wanted, record, RECORD);
        const struct second_answer answer = make_call(CALL_SAMPLES, record, RECORD, sample, 24, 28);
        CHECK(answer.result == (all_finite ? 0 : 4));
        check_bytes(record, RECORD, wanted, RECORD, __LINE__, "record after a reading");
        CHECK(accepted(record));
        if (round % 10 == 9)
            CHECK(make_call(CALL_POWER_ON, record, RECORD, NULL, 0, 0).result == 0);
    }
}

static void test_random_pairs(void) {
    FACTORY_RECORD(record);
    record[AT_FLAGS] = SENDING | SEEN;
    for (unsigned round = 0; round < 20000; round++) {
        uint8_t *pair = record + AT_PAIRS + 8 * random_below(6);
        for (size_t i = 0; i < 4; i++)
            pair[i] = (uint8_t)random_below(256);
        random_float(pair + 4, pair);
        CHECK(accepted(record) ==
              (is_finite(pair) && is_finite(pair + 4) && value_of(pair + 4) <= value_of(pair)));
        memset(pair, 0, 8);
    }
}

/* The four numbers of an entry, in their order. */
struct entry {
    uint32_t head, status, place, count;
};

enum { LIST_ROOM = 4096 };

static uint32_t last_list[LIST_ROOM];

/* Reads from and into exact blocks and checks everything that holds for every reading. */
static struct second_reading read_into(const uint8_t *given, size_t len, size_t list_len) {
    uint8_t *capture = block(given, len);
    uint32_t *list = (uint32_t *)(void *)block(NULL, list_len * sizeof *list);
    const struct second_reading reading = second_read(capture, len, list, list_len);
    CHECK(reading.result == 0 || reading.result == 2 || reading.result == 3);
    CHECK(len == 0 || memcmp(capture, given, len) == 0);
    if (reading.result != 0)
        CHECK(reading.entries == 0 && reading.skipped == 0 && reading.unread == 0);
    const size_t numbers = 4 * (size_t)reading.entries;
    bool behind_unchanged = numbers <= list_len;
    for (size_t i = numbers; i < list_len; i++)
        behind_unchanged = behind_unchanged && list[i] == CANARY * 0x1010101u;
    CHECK(behind_unchanged);
    if (numbers <= list_len && numbers <= LIST_ROOM)
        memcpy(last_list, list, numbers * sizeof *list);
    free(capture);
    free(list);
    return reading;
}

/* A list with just the entries that are asked for. */
static struct second_reading read_all(const uint8_t *capture, size_t len) {
    return read_into(capture, len, 4 * (len / 4));
}

static void check_entry(size_t at, struct entry wanted, int line) {
    const uint32_t *seen = last_list + 4 * at;
    const bool good = seen[0] == wanted.head && seen[1] == wanted.status && seen[2] == wanted.place &&
                      seen[3] == wanted.count;
    check(good, line, "entry");
    if (!good)
        printf("  entry %zu: %02X %02X %u %u\n", at, (unsigned)seen[0], (unsigned)seen[1], (unsigned)seen[2],
               (unsigned)seen[3]);
}

static void check_reading(struct second_reading seen, uint32_t entries, uint32_t skipped, uint32_t unread,
                          int line) {
    const bool good =
        seen.result == 0 && seen.entries == entries && seen.skipped == skipped && seen.unread == unread;
    check(good, line, "reading");
    if (!good)
        printf("  result %u, entries %u, skipped %u, unread %u\n", (unsigned)seen.result,
               (unsigned)seen.entries, (unsigned)seen.skipped, (unsigned)seen.unread);
}

#define READING(seen, entries, skipped, unread) check_reading(seen, entries, skipped, unread, __LINE__)

/* A capture, and what has to be read from it. */
struct reading_row {
    const char *capture;
    uint32_t skipped, unread, entries;
    struct entry list[4];
};

static void check_rows(const struct reading_row *rows, size_t count, int line) {
    for (size_t i = 0; i < count; i++) {
        uint8_t capture[256];
        const size_t len = hex(rows[i].capture, capture);
        const unsigned long before = failed;
        check_reading(read_all(capture, len), rows[i].entries, rows[i].skipped, rows[i].unread, line);
        for (size_t k = 0; k < rows[i].entries; k++)
            check_entry(k, rows[i].list[k], line);
        if (failed > before)
            printf("  row %zu: %s\n", i, rows[i].capture);
    }
}

#define ROWS(rows) check_rows(rows, sizeof(rows) / sizeof *(rows), __LINE__)

/* Printed frames and sessions of the manufacturer, commands between the replies too. */
static void test_read_printed(void) {
    static const struct reading_row rows[] = {
        {"AA 50 00 85", 0, 0, 1, {{0x50, 0, 3, 0}}},
        {"AA 54 00 00 F8 1F AE 85", 0, 0, 1, {{0x54, 0, 3, 4}}},
        {"AA 15 B0 B9066773 BFA0F341 BF9FFFA6 BF9FC4D9 BF9FB83F BFA07DA7 85", 0, 0, 1, {{0x15, 0xB0, 3, 24}}},
        {"AA 6B 00 47 53 56 2D 36 42 54 5F 64 65 76 85", 0, 0, 1, {{0x6B, 0, 3, 11}}},
        {"AA 62 00 00 14 85 AA 60 00 85", 0, 0, 2, {{0x62, 0, 3, 2}, {0x60, 0, 9, 0}}},
        /* Errors with data, which the board does not send and the reader takes as they are. */
        {"AA 62 54 00 00 85", 0, 0, 1, {{0x62, 0x54, 3, 2}}},
        {"AA 62 C0 01 08 85", 0, 0, 1, {{0x62, 0xC0, 3, 2}}},
        {"AA 62 62 00 11 85", 0, 0, 1, {{0x62, 0x62, 3, 2}}},
        /* A full name is a long reply whose third byte adds nothing. */
        {"AA 6F 00 6E69656C736E69656C736E69656C73 85", 0, 0, 1, {{0x6F, 0, 3, 15}}},
        /* Two data bytes are announced where none are, so it waits, and is torn by what comes next. */
        {"AA 62 00 85", 0, 4, 0, {{0}}},
        {"AA 62 00 85 AA A0 ED 85", 8, 0, 0, {{0}}},
        {"AA 62 00 85 AA 60 62 85", 4, 0, 1, {{0x60, 0x62, 7, 0}}},
        /* Frames with a checksum, and the measuring frame of eight channels. */
        {"AA 74 00 C8 73 00 02 B9 85 AA 70 00 A2 85", 14, 0, 0, {{0}}},
        {"AA 37 B0 C1C7CD38 3FE6197E 3FC0B60B BF497E95 4022DD1D 3FB21153 3EE6C372 3F92653B E76E 85",
         38,
         0,
         0,
         {{0}}},
        /* Data with an 85, then the stop command and its reply. */
        {"AA 15 B0 BCEA283A BF866666 3E1A85C4 3F1B51A7 BD238AE0 BF866666 85 AA 90 23 85 AA 50 00 85",
         4,
         0,
         2,
         {{0x15, 0xB0, 3, 24}, {0x50, 0, 35, 0}}},
        {"AA A0 E8 85 AA 6F 00 6E69656C736E69656C736E69656C73 85 AA A1 EE 01 85 AA 60 00 85 AA A0 ED 85"
         "AA 61 00 01 85",
         13,
         0,
         3,
         {{0x6F, 0, 7, 15}, {0x60, 0, 31, 0}, {0x61, 0, 39, 1}}},
    };
    ROWS(rows);
}

/* What is no frame, what tears and what waits. */
static void test_read_hunt(void) {
    static const struct reading_row rows[] = {
        {"", 0, 0, 0, {{0}}},
        {"00", 1, 0, 0, {{0}}},
        {"85 50 00 85", 4, 0, 0, {{0}}},
        {"AA", 0, 1, 0, {{0}}},
        {"00 AA", 1, 1, 0, {{0}}},
        {"AA 15", 0, 2, 0, {{0}}},
        {"AA 5F", 0, 2, 0, {{0}}},
        {"AA 6F", 0, 2, 0, {{0}}},
        {"AA 50", 0, 2, 0, {{0}}},
        {"AA 6E", 0, 2, 0, {{0}}},
        {"AA 50 00", 0, 3, 0, {{0}}},
        {"AA 15 B0", 0, 3, 0, {{0}}},
        {"AA 5F 00", 0, 3, 0, {{0}}},
        {"AA 51 00 85", 0, 4, 0, {{0}}},
        /* Neighbours of good heads. */
        {"AA 4F", 2, 0, 0, {{0}}},
        {"AA 70", 2, 0, 0, {{0}}},
        {"AA 7F", 2, 0, 0, {{0}}},
        {"AA 14", 2, 0, 0, {{0}}},
        {"AA 16", 2, 0, 0, {{0}}},
        {"AA 05", 2, 0, 0, {{0}}},
        {"AA 25", 2, 0, 0, {{0}}},
        {"AA 40 00 85 AA 70 00 85 AA 90 00 85 AA A0 00 85", 16, 0, 0, {{0}}},
        /* A measuring frame is known by its third byte, before the rest is there. */
        {"AA 15 AF", 3, 0, 0, {{0}}},
        {"AA 15 B1", 3, 0, 0, {{0}}},
        {"AA 15 00", 3, 0, 0, {{0}}},
        {"AA 15 AA", 2, 1, 0, {{0}}},
        {"AA 15 AA 50 00 85", 2, 0, 1, {{0x50, 0, 5, 0}}},
        {"AA 15 30 AA 60 55 85", 3, 0, 1, {{0x60, 0x55, 6, 0}}},
        {"AA 17 B0 AA 60 55 85", 3, 0, 1, {{0x60, 0x55, 6, 0}}},
        /* AA is no head of a reply, so a second one begins anew. */
        {"AA AA 50 00 85", 1, 0, 1, {{0x50, 0, 4, 0}}},
        {"AA AA", 1, 1, 0, {{0}}},
        /* Within a whole frame nothing else is looked for, within a torn one it is. */
        {"AA 53 00 AA 50 00 85", 0, 0, 1, {{0x53, 0, 3, 3}}},
        {"AA 54 00 AA 50 00 85 85", 0, 0, 1, {{0x54, 0, 3, 4}}},
        {"AA 54 00 AA 50 00 85 84", 4, 0, 1, {{0x50, 0, 6, 0}}},
        {"AA 52 00 AA 50 00 85", 3, 0, 1, {{0x50, 0, 6, 0}}},
        {"AA 50 AA 60 40 85", 2, 0, 1, {{0x60, 0x40, 5, 0}}},
        {"AA 50 AA 85 60 40 85", 3, 0, 1, {{0x50, 0xAA, 3, 0}}},
        {"AA 54 00 AA 6F 85 00 00", 3, 5, 0, {{0}}},
        {"AA 50 00 84 AA 60 00 05 AA 60 00 85", 8, 0, 1, {{0x60, 0, 11, 0}}},
        {"AA 50 00 AA", 3, 1, 0, {{0}}},
        /* An inner frame that begins in a torn one may reach beyond it. */
        {"AA 51 00 AA 62 00 01 02 85", 3, 0, 1, {{0x62, 0, 6, 2}}},
        {"AA 55 40 AA 51 00 AA 50 00 85", 6, 0, 1, {{0x50, 0, 9, 0}}},
        /* The first of two that overlap and are both whole is read. */
        {"AA 52 00 AA 50 85 85", 1, 0, 1, {{0x52, 0, 3, 2}}},
        /* Nothing behind what waits is read, though it would be a frame by itself. */
        {"AA 50 40 85 AA 5F 00 AA 50 00 85", 0, 7, 1, {{0x50, 0x40, 3, 0}}},
        {"AA 15 B0 AA 50 00 85 AA 60 00 85", 0, 11, 0, {{0}}},
        {"AA 6E 00 AA 60 00 85", 0, 7, 0, {{0}}},
        /* A long reply that is torn is given up by one byte. */
        {"AA 5F 00 AA 50 40 85 00 00 00 00 00 00 00 00 00 00 00 00", 15, 0, 1, {{0x50, 0x40, 6, 0}}},
        {"AA 5F 00 AA 50 40 85 00 00 00 00 00 00 00 00 00 00 00 85", 0, 0, 1, {{0x5F, 0, 3, 15}}},
        {"AA 5F 01 AA 50 40 85 00 00 00 00 00 00 00 00 00 00 00 85", 0, 19, 0, {{0}}},
        {"AA 6F 01 AA 50 40 85 00 00 00 00 00 00 00 00 00 00 00 00 85", 0, 0, 1, {{0x6F, 0, 3, 16}}},
        {"AA 5F AA 50 40 85", 0, 6, 0, {{0}}},
    };
    ROWS(rows);
}

/* A frame of a head and a third byte, so many data bytes and a last byte. */
static size_t put_sent(uint8_t *to, unsigned head, unsigned third, size_t count, unsigned last) {
    to[0] = 0xAA;
    to[1] = (uint8_t)head;
    to[2] = (uint8_t)third;
    memset(to + 3, last == 0x85 ? 0x00 : 0x85, count);
    to[3 + count] = (uint8_t)last;
    return 4 + count;
}

/* One frame behind two bytes of noise: whole, one byte short, with a wrong end, and with a byte behind it. */
static void check_sent(unsigned head, unsigned third, size_t count, unsigned status, int line) {
    uint8_t bytes[300] = {0x00, 0x85};
    const struct entry wanted = {head, status, 5, (uint32_t)count};
    const size_t len = 2 + put_sent(bytes + 2, head, third, count, 0x85);
    bytes[len] = 0xAA;
    check_reading(read_all(bytes, len), 1, 2, 0, line);
    check_entry(0, wanted, line);
    check_reading(read_all(bytes, len + 1), 1, 2, 1, line);
    check_entry(0, wanted, line);
    check_reading(read_all(bytes, len - 1), 0, 2, (uint32_t)len - 3, line);
    put_sent(bytes + 2, head, third, count, 0x84);
    check_reading(read_all(bytes, len - 1), 0, 2, (uint32_t)len - 3, line);
    check_reading(read_all(bytes, len), 0, (uint32_t)len, 0, line);
}

static void test_read_sizes(void) {
    for (unsigned third = 0; third < 256; third++) {
        for (unsigned count = 0; count <= 14; count++) {
            check_sent(0x50 + count, third, count, third, __LINE__);
            check_sent(0x60 + count, third, count, third, __LINE__);
        }
        check_sent(0x5F, third, third + 15, 0, __LINE__);
        check_sent(0x6F, third, third + 15, 0, __LINE__);
    }
    check_sent(0x15, 0xB0, 24, 0xB0, __LINE__);
}

/* The largest counts that there can be. */
static void test_read_most(void) {
    static uint8_t capture[4096];
    for (size_t at = 0; at < 4096; at += 4)
        hex("AA 50 00 85", capture + at);
    READING(read_all(capture, 4096), 1024, 0, 0);
    for (uint32_t i = 0; i < 1024; i++)
        check_entry(i, (struct entry){0x50, 0, 4 * i + 3, 0}, __LINE__);
    READING(read_all(capture + 1, 4095), 1023, 3, 0);
    READING(read_all(capture, 4095), 1023, 0, 3);
    memset(capture, 0x85, sizeof capture);
    READING(read_all(capture, 4096), 0, 4096, 0);
    memset(capture, 0xAA, sizeof capture);
    READING(read_all(capture, 4096), 0, 4095, 1);
    /* The longest reply at the end, whole and one byte short of it. */
    memset(capture, 0, sizeof capture);
    put_sent(capture + 4096 - 274, 0x6F, 0xFF, 270, 0x85);
    READING(read_all(capture, 4096), 1, 4096 - 274, 0);
    check_entry(0, (struct entry){0x6F, 0, 4096 - 271, 270}, __LINE__);
    READING(read_all(capture, 4095), 0, 4096 - 274, 273);
    /* Heads of longest replies that all tear but those at the end. */
    for (size_t at = 0; at < 4096; at += 2)
        hex("AA 5F", capture + at);
    for (size_t at = 2; at < 4096; at += 4)
        hex("FF", capture + at);
    READING(read_all(capture, 4096), 0, 4096 - 272, 272);
}

static void test_read_refusals(void) {
    static uint8_t capture[70000];
    static uint32_t list[4];
    CHECK(read_into(capture, 4097, 0).result == 2);
    CHECK(read_into(capture, 4097, 4095).result == 2);
    CHECK(read_into(capture, 4097, 4096).result == 2);
    CHECK(read_into(capture, 65536, 0).result == 2);
    CHECK(read_into(capture, 65536 + 4, 65536 + 4).result == 2);
    CHECK(read_into(capture, 4096, 4095).result == 3);
    CHECK(read_into(capture, 4096, 0).result == 3);
    CHECK(read_into(capture, 4095, 4091).result == 3);
    READING(read_into(capture, 4096, 4096), 0, 4096, 0);
    READING(read_into(capture, 4095, 4092), 0, 4095, 0);
    READING(read_into(capture, 4096, 65536), 0, 4096, 0);
    CHECK(second_read(capture, SIZE_MAX, NULL, 0).result == 2);
    CHECK(second_read(NULL, 0, NULL, 0).result == 0);
    CHECK(second_read(NULL, 0, list, 4).result == 0);
    for (size_t len = 0; len <= 64; len++) {
        for (size_t numbers = 0; numbers <= 72; numbers++) {
            const struct second_reading reading = read_into(capture, len, numbers);
            CHECK(reading.result == (numbers / 4 < len / 4 ? 3 : 0));
            CHECK(reading.skipped == (reading.result == 0 ? len : 0));
        }
    }
    /* Three bytes have room for no frame, so that no list is asked for. */
    hex("AA 50 00", capture);
    READING(second_read(capture, 3, NULL, 0), 0, 0, 3);
    CHECK(second_read(capture, 4, NULL, 0).result == 3);
    /* Room for the entry is asked for even where there is none. */
    CHECK(read_into(capture, 4, 3).result == 3);
    READING(read_into(capture, 4, 4), 0, 4, 0);
}

/* A plain reader: how long the frame is that begins here, 0 if there is none, longer than len if it waits. */
static size_t plain_size(const uint8_t *bytes, size_t len) {
    const size_t waits = len + 1;
    if (bytes[0] != 0xAA)
        return 0;
    if (len == 1)
        return waits;
    size_t size;
    const unsigned head = bytes[1];
    if (head == 0x15 || head == 0x5F || head == 0x6F) {
        if (len == 2)
            return waits;
        if (head == 0x15 && bytes[2] != 0xB0)
            return 0;
        size = head == 0x15 ? 28 : 19u + bytes[2];
    } else if ((head >= 0x50 && head < 0x5F) || (head >= 0x60 && head < 0x6F)) {
        size = 4 + head % 16;
    } else {
        return 0;
    }
    if (size > len)
        return waits;
    return bytes[size - 1] == 0x85 ? size : 0;
}

static void check_plain(const uint8_t *capture, size_t len) {
    const struct second_reading reading = read_all(capture, len);
    uint32_t entries = 0, skipped = 0;
    size_t at = 0;
    while (at < len) {
        const size_t size = plain_size(capture + at, len - at);
        if (size > len - at)
            break;
        if (size > 0) {
            const uint32_t head = capture[at + 1];
            const uint32_t status = head == 0x5F || head == 0x6F ? 0 : capture[at + 2];
            check_entry(entries++, (struct entry){head, status, (uint32_t)at + 3, (uint32_t)size - 4},
                        __LINE__);
        }
        skipped += size == 0;
        at += size == 0 ? 1 : size;
    }
    READING(reading, entries, skipped, (uint32_t)(len - at));
}

/* Mostly bytes that matter to the reader, with short third bytes so that long replies end. */
static void random_capture(uint8_t *bytes, size_t len) {
    static const uint8_t telling[] = {0xAA, 0xAA, 0xAA, 0x50, 0x51, 0x5F, 0x60, 0x62,
                                      0x6F, 0x15, 0xB0, 0x85, 0x85, 0x00, 0x01, 0x02};
    for (size_t i = 0; i < len; i++)
        bytes[i] = random_below(16) == 0 ? (uint8_t)random_below(256) : telling[random_below(sizeof telling)];
}

static void test_random_captures(void) {
    static uint8_t capture[4096];
    for (unsigned round = 0; round < 20000; round++) {
        const size_t len = random_below(round % 100 == 0 ? 4097 : 400);
        random_capture(capture, len);
        /* Some whole frames over it, which may tear each other. */
        for (size_t at = random_below(100); at + 300 < len; at += random_below(300)) {
            const unsigned third = random_below(256);
            if (random_below(3) == 0)
                put_sent(capture + at, 0x15, 0xB0, 24, 0x85);
            else if (random_below(2) == 0)
                put_sent(capture + at, 0x5F, third, third + 15, random_below(8) == 0 ? 0x84 : 0x85);
            else
                put_sent(capture + at, 0x60 + third % 15, third, third % 15, 0x85);
        }
        check_plain(capture, len);
    }
}

/* Writes one reply or measuring frame to last_output and answers the entry that has to come back. */
static struct entry random_step(uint8_t *record) {
    if (random_below(4) == 0) {
        CHECK(take(record, good_sample).written == 28);
        return (struct entry){0x15, 0xB0, 0, 24};
    }
    const size_t row = random_below((uint32_t)(sizeof built / sizeof *built));
    uint8_t parameters[15];
    for (size_t i = 0; i < built[row].most; i++)
        parameters[i] = (uint8_t)random_below(random_below(32) == 0 ? 256 : 8);
    const struct reply reply = send(record, built[row].part, built[row].number, parameters, built[row].most);
    record[AT_FLAGS] |= SENDING;
    return (struct entry){(built[row].part == BT121 ? 0x60u : 0x50u) + (uint32_t)reply.len, reply.status, 0,
                          (uint32_t)reply.len};
}

/* What the bytes and samples calls wrote is read back as it was meant. */
static void test_read_back(void) {
    static uint8_t capture[4096];
    static struct entry wanted[1024];
    for (unsigned round = 0; round < 300; round++) {
        FACTORY_RECORD(record);
        size_t len = 0;
        uint32_t entries = 0;
        record[AT_FLAGS] |= UNLOCKED;
        while (len + 28 <= sizeof capture) {
            wanted[entries] = random_step(record);
            wanted[entries].place = (uint32_t)len + 3;
            memcpy(capture + len, last_output, 4 + wanted[entries].count);
            len += 4 + wanted[entries++].count;
        }
        READING(read_all(capture, len), entries, 0, 0);
        for (uint32_t i = 0; i < entries; i++)
            check_entry(i, wanted[i], __LINE__);
    }
}

static void test_well_formed(void) {
    test_well_formed_fields();
    test_well_formed_texts();
    test_well_formed_pending();
    test_well_formed_pairs();
}

static void test_places(void) {
    test_places_of_changes();
    test_places_in_order();
    test_places_without_reading();
    test_places_of_lengths();
}

int main(void) {
    test_factory();
    test_power_on();
    test_bench_examples();
    test_early_statuses();
    test_status_order();
    sweep_set_byte(0xE5, 5, AT_LE, 0xE4);
    sweep_set_byte(0xE7, 1, AT_MODE, 0xE6);
    sweep_set_byte(0xEE, 2, AT_ON_OFF, 0xED);
    test_power_command();
    test_name_command();
    test_place_commands();
    test_interval_command();
    test_configuration_mode();
    test_code();
    test_model();
    test_filter();
    test_pair_command();
    test_hunt();
    test_cuts();
    test_room();
    test_call_refusals();
    test_well_formed();
    test_places();
    test_second_readings();
    test_samples();
    test_random_samples();
    test_random_pairs();
    test_read_printed();
    test_read_hunt();
    test_read_sizes();
    test_read_most();
    test_read_refusals();
    test_random_captures();
    test_read_back();
    printf("%lu passed, %lu failed\n", passed, failed);
    return failed == 0 ? 0 : 1;
}
