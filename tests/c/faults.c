/* Records with two faults, records of a wrong length, and the same fault under other codes: the places. */
#include "both.h"
#include "hex.h"
#include "parts.h"
#include "record.h"
#include "tally.h"

#include <stdio.h>
#include <string.h>

/* When a fault is one: with a reading a pair may have bytes that are not zero. */
enum when { ALWAYS, UNREAD };

/* Bytes that make a start record bad, and the place that document 02 gives this. */
struct fault {
    size_t place, at, len;
    const char *bytes;
    enum when when;
};

/* In a start record the name is GSV-6BT_dev, the model K6D, and AA 92 E3 01 02 is pending. */
static const struct fault faults[] = {
    /* length: a byte over, a byte short, low byte first, none */
    {0, 0, 1, "\x01", ALWAYS},
    {0, 1, 1, "\x7A", ALWAYS},
    {0, 1, 1, "\x7C", ALWAYS},
    {0, 0, 2, "\x7B\x00", ALWAYS},
    {0, 0, 2, "\x00\x00", ALWAYS},
    /* version */
    {2, 2, 1, "\x00", ALWAYS},
    {2, 2, 1, "\x02", ALWAYS},
    {2, 2, 1, "\xFF", ALWAYS},
    /* flags: with and without the reading */
    {3, 3, 1, "\x10", ALWAYS},
    {3, 3, 1, "\x88", ALWAYS},
    {3, 3, 1, "\xFF", ALWAYS},
    /* tries */
    {4, 4, 1, "\x04", ALWAYS},
    {4, 4, 1, "\xFF", ALWAYS},
    /* power: 13, -21, 256, -32,768, 255 */
    {9, 9, 2, "\x00\x0D", ALWAYS},
    {9, 9, 2, "\xFF\xEB", ALWAYS},
    {9, 9, 2, "\x01\x00", ALWAYS},
    {9, 9, 2, "\x80\x00", ALWAYS},
    {9, 9, 2, "\x00\xFF", ALWAYS},
    /* step, mode, on/off */
    {11, 11, 1, "\x06", ALWAYS},
    {11, 11, 1, "\xFF", ALWAYS},
    {12, 12, 1, "\x02", ALWAYS},
    {12, 12, 1, "\x80", ALWAYS},
    {13, 13, 1, "\x03", ALWAYS},
    {13, 13, 1, "\xFF", ALWAYS},
    /* input types of channels 2 to 6 */
    {14, 14, 1, "\x02", ALWAYS},
    {14, 14, 1, "\xFF", ALWAYS},
    {15, 15, 1, "\x02", ALWAYS},
    {15, 15, 1, "\x80", ALWAYS},
    {16, 16, 1, "\x02", ALWAYS},
    {16, 16, 1, "\xFF", ALWAYS},
    {17, 17, 1, "\x02", ALWAYS},
    {17, 17, 1, "\x03", ALWAYS},
    {18, 18, 1, "\x02", ALWAYS},
    {18, 18, 1, "\xFF", ALWAYS},
    /* outputs */
    {19, 19, 1, "\x10", ALWAYS},
    {19, 19, 1, "\x80", ALWAYS},
    /* interval */
    {20, 20, 1, "\x01", ALWAYS},
    {20, 20, 1, "\x03", ALWAYS},
    {20, 20, 1, "\x3C", ALWAYS},
    {20, 20, 1, "\xFF", ALWAYS},
    /* filter word: each byte */
    {21, 21, 1, "\x01", ALWAYS},
    {21, 22, 1, "\x80", ALWAYS},
    {21, 23, 1, "\x01", ALWAYS},
    {21, 24, 1, "\x40", ALWAYS},
    {21, 24, 1, "\xFF", ALWAYS},
    /* name length */
    {25, 25, 1, "\x10", ALWAYS},
    {25, 25, 1, "\x80", ALWAYS},
    {25, 25, 1, "\xFF", ALWAYS},
    /* name bytes: first, last, behind, at the end; the same name at a smaller length */
    {26, 26, 1, "\x80", ALWAYS},
    {26, 36, 1, "\xFF", ALWAYS},
    {26, 37, 1, "\x01", ALWAYS},
    {26, 40, 1, "\x7F", ALWAYS},
    {26, 25, 1, "\x0A", ALWAYS},
    {26, 25, 1, "\x00", ALWAYS},
    /* model: behind its zero, at the end, a zero in front and in it */
    {41, 45, 1, "\x01", ALWAYS},
    {41, 55, 1, "\xFF", ALWAYS},
    {41, 41, 1, "\x00", ALWAYS},
    {41, 42, 1, "\x00", ALWAYS},
    /* pending length */
    {56, 56, 1, "\x13", ALWAYS},
    {56, 56, 1, "\x80", ALWAYS},
    {56, 56, 1, "\xFF", ALWAYS},
    /* pending bytes: no AA, no head, a head that is whole, behind, at the end; at lengths that cannot wait */
    {57, 57, 1, "\x00", ALWAYS},
    {57, 57, 1, "\xAB", ALWAYS},
    {57, 58, 1, "\xB2", ALWAYS},
    {57, 58, 1, "\x91", ALWAYS},
    {57, 62, 1, "\x01", ALWAYS},
    {57, 74, 1, "\x85", ALWAYS},
    {57, 56, 1, "\x00", ALWAYS},
    {57, 56, 1, "\x04", ALWAYS},
    {57, 56, 1, "\x06", ALWAYS},
    {57, 56, 1, "\x12", ALWAYS},
    /* pairs: no numbers in the greatest, in the smallest; above by a little and by much; zeros; one byte */
    {75, 75, 4, "\x7F\x80\x00\x00", ALWAYS},
    {75, 79, 4, "\x7F\xC0\x00\x00", ALWAYS},
    {75, 75, 8, "\x00\x00\x00\x00\x00\x00\x00\x01", ALWAYS},
    {75, 75, 4, "\x80\x00\x00\x00", UNREAD},
    {83, 83, 4, "\xFF\x80\x00\x00", ALWAYS},
    {83, 87, 4, "\x7F\x80\x00\x00", ALWAYS},
    {83, 83, 8, "\x80\x00\x00\x01\x80\x00\x00\x00", ALWAYS},
    {83, 90, 1, "\x01", UNREAD},
    {91, 91, 4, "\x7F\x80\x00\x01", ALWAYS},
    {91, 95, 4, "\xFF\x80\x00\x00", ALWAYS},
    {91, 91, 8, "\xFF\x7F\xFF\xFF\x7F\x7F\xFF\xFF", ALWAYS},
    {91, 91, 1, "\x01", UNREAD},
    {99, 99, 4, "\x7F\xFF\xFF\xFF", ALWAYS},
    {99, 103, 4, "\xFF\xC0\x00\x00", ALWAYS},
    {99, 99, 8, "\x3F\x80\x00\x00\x3F\x80\x00\x01", ALWAYS},
    {99, 106, 1, "\x80", UNREAD},
    {107, 107, 4, "\x7F\xC0\x00\x00", ALWAYS},
    {107, 111, 4, "\xFF\xFF\xFF\xFF", ALWAYS},
    {107, 107, 8, "\xBF\x80\x00\x01\xBF\x80\x00\x00", ALWAYS},
    {107, 108, 1, "\x01", UNREAD},
    {115, 115, 4, "\xFF\xC0\x00\x00", ALWAYS},
    {115, 119, 4, "\x7F\x80\x00\x01", ALWAYS},
    {115, 115, 8, "\x80\x00\x00\x00\x00\x00\x00\x01", ALWAYS},
    {115, 122, 1, "\x01", UNREAD},
};

enum { FAULTS = sizeof faults / sizeof *faults, STARTS = 4, LENGTH_MOST = 200 };

/* As bytes and as a sample such that a call that did not look would change the record and write. */
static const uint8_t input[BOARD_SAMPLE_SIZE] = {0x85, 0xAA, 0x90, 0x23, 0x85, 0xAA, 0x90, 0x24, 0x85};

enum { ROOM = BOARD_ROOM(PENDING_MOST, sizeof input) };

static struct board_answer give(enum call call, uint8_t *record, size_t len) {
    return both(&(struct given){call, record, len, input, sizeof input, ROOM, false});
}

/* Holds what both programs did to the table: the call is refused at the place, and the record stays. */
static void expect_refused(enum call call, const uint8_t *record, size_t len, size_t place) {
    uint8_t copy[LENGTH_MOST];
    memcpy(copy, record, len);
    const struct board_answer answer = give(call, copy, len);
    const bool good = answer.result == BOARD_BAD_RECORD && answer.written == 0 && answer.skipped == 0 &&
                      answer.place == place && memcmp(copy, record, len) == 0;
    if (!tally_case(good))
        return;
    printf("%s: result %u, place %u, not bad at %zu: ", call_names[call], (unsigned)answer.result,
           (unsigned)answer.place, place);
    hex_print(record, len, "");
    printf("\n");
}

static void expect_refused_by_all(const uint8_t *record, size_t place) {
    for (int call = CALL_POWER_ON; call < CALLS; call++)
        expect_refused((enum call)call, record, RECORD_SIZE, place);
}

static void draw_start(struct draw *draw, uint8_t *record, bool reading) {
    draw_record(draw, record, 0, reading);
    field_set(record, field_named("name"), (const uint8_t *)"GSV-6BT_dev", 11);
    field_set(record, field_named("model"), (const uint8_t *)"K6D", 3);
    field_set(record, field_named("pending"), (const uint8_t *)"\xAA\x92\xE3\x01\x02", 5);
}

/* A start record that is not well formed would make its faults say nothing. */
static void check_start(const uint8_t *record) {
    uint8_t copy[RECORD_SIZE];
    for (int call = CALL_POWER_ON; call < CALLS; call++) {
        memcpy(copy, record, RECORD_SIZE);
        if (tally_case(give((enum call)call, copy, RECORD_SIZE).result == BOARD_DONE))
            printf("a start record is not well formed\n");
    }
}

static bool is_fault(const struct fault *fault, bool reading) { return fault->when == ALWAYS || !reading; }

static bool overlap(const struct fault *a, const struct fault *b) {
    return a->at < b->at + b->len && b->at < a->at + a->len;
}

static void put_fault(uint8_t *record, const struct fault *fault) {
    memcpy(record + fault->at, fault->bytes, fault->len);
}

/* The fault by itself, then with each fault of a later field. */
static void with_later_faults(const uint8_t *start, const struct fault *fault, bool reading) {
    uint8_t record[RECORD_SIZE];
    memcpy(record, start, RECORD_SIZE);
    put_fault(record, fault);
    expect_refused_by_all(record, fault->place);
    for (const struct fault *later = fault + 1; later < faults + FAULTS; later++) {
        if (later->place == fault->place || overlap(fault, later) || !is_fault(later, reading))
            continue;
        memcpy(record, start, RECORD_SIZE);
        put_fault(record, fault);
        put_fault(record, later);
        expect_refused_by_all(record, fault->place);
    }
}

static void every_two_faults(struct draw *draw) {
    uint8_t start[RECORD_SIZE];
    for (unsigned i = 0; i < STARTS; i++) {
        const bool reading = i % 2 == 0;
        draw_start(draw, start, reading);
        check_start(start);
        for (size_t k = 0; k < FAULTS; k++) {
            if (is_fault(&faults[k], reading))
                with_later_faults(start, &faults[k], reading);
        }
    }
}

/* One of the faults of the field that the last of them has. */
static const struct fault *draw_fault(struct draw *draw, const struct fault *last, bool reading) {
    const struct fault *first = last, *fault;
    while (first > faults && first[-1].place == last->place)
        first--;
    do
        fault = first + draw_below(draw, (uint32_t)(last - first) + 1);
    while (!is_fault(fault, reading));
    return fault;
}

/* Every field bad from one on: the last by itself, then each with all behind it. */
static void every_rest_faulty(struct draw *draw) {
    enum { ROUNDS = 20 };
    uint8_t record[RECORD_SIZE];
    for (unsigned i = 0; i < ROUNDS; i++) {
        const bool reading = i % 2 == 0;
        draw_start(draw, record, reading);
        for (const struct fault *behind = faults + FAULTS; behind > faults;) {
            const struct fault *fault = draw_fault(draw, behind - 1, reading);
            put_fault(record, fault);
            expect_refused_by_all(record, fault->place);
            while (behind > faults && behind[-1].place == fault->place)
                behind--;
        }
    }
}

/* Good bytes, cut or grown, then bytes that are bad everywhere, bad at the version, and any. */
static void fill(struct draw *draw, uint8_t *record, size_t room, unsigned way) {
    draw_bytes(draw, record, room);
    if (way == 3)
        return;
    memcpy(record, factory_record, RECORD_SIZE);
    if (way == 1)
        memset(record, 0xFF, room);
    if (way == 2)
        record[2] = 0x02;
}

static void every_wrong_length(struct draw *draw) {
    enum { WAYS = 4 };
    uint8_t record[LENGTH_MOST];
    for (size_t len = 0; len <= LENGTH_MOST; len++) {
        for (unsigned way = 0; len != RECORD_SIZE && way < WAYS; way++) {
            fill(draw, record, sizeof record, way);
            for (int call = 0; call < CALLS; call++)
                expect_refused((enum call)call, record, len, 0);
        }
    }
}

/* One fault of the table, or up to eight bytes changed to any. */
static void spoil(struct draw *draw, uint8_t *record) {
    const struct fault *fault = &faults[draw_below(draw, FAULTS)];
    if (draw_below(draw, 2) == 0) {
        put_fault(record, fault);
        return;
    }
    for (uint32_t left = 1 + draw_below(draw, 8); left > 0; left--)
        record[draw_below(draw, RECORD_SIZE)] = draw_byte(draw);
}

static bool same(struct board_answer a, struct board_answer b) {
    return a.result == b.result && a.place == b.place;
}

/* Boards that differ in the code alone are bad at the same place, or none is. */
static void every_code(struct draw *draw) {
    static const uint8_t codes[][CODE_SIZE + 1] = {"USC1", "\x00\x00\x00\x00", "\xFF\xFF\xFF\xFF",
                                                   "\x00\x7B\x01\x04", "\x10\x10\x13\xFF"};
    enum { RECORDS = 2000, CODES = sizeof codes / sizeof *codes };
    uint8_t spoilt[RECORD_SIZE], record[RECORD_SIZE];
    for (unsigned i = 0; i < RECORDS; i++) {
        draw_start(draw, spoilt, draw_below(draw, 2) == 0);
        spoil(draw, spoilt);
        for (int call = CALL_POWER_ON; call < CALLS; call++) {
            struct board_answer first = {0};
            bool good = true;
            for (size_t code = 0; code < CODES; code++) {
                memcpy(record, spoilt, RECORD_SIZE);
                memcpy(record + AT_CODE, codes[code], CODE_SIZE);
                const struct board_answer answer = give((enum call)call, record, RECORD_SIZE);
                if (code == 0)
                    first = answer;
                good = good && same(answer, first);
            }
            if (tally_case(good))
                printf("%s: the place depends on the code\n", call_names[call]);
        }
    }
}

/* Factory looks at the length only, so that no field is bad. */
static void every_factory(struct draw *draw) {
    uint8_t record[RECORD_SIZE];
    for (size_t i = 0; i < FAULTS; i++) {
        draw_start(draw, record, true);
        put_fault(record, &faults[i]);
        const struct board_answer answer = give(CALL_FACTORY, record, RECORD_SIZE);
        if (tally_case(answer.result == BOARD_DONE && answer.place == 0 &&
                       memcmp(record, factory_record, RECORD_SIZE) == 0))
            printf("factory: result %u, place %u\n", (unsigned)answer.result, (unsigned)answer.place);
    }
}

void run_faults(const struct settings *settings) {
    struct draw draw = draw_from(settings->seed);
    every_two_faults(&draw);
    every_rest_faulty(&draw);
    every_wrong_length(&draw);
    every_code(&draw);
    every_factory(&draw);
}
