/* Every pair of chosen float patterns through two readings, and kept in a record, in every float mode. */
#include "both.h"
#include "frames.h"
#include "parts.h"
#include "record.h"
#include "tally.h"

#include <inttypes.h>
#include <stdio.h>
#include <string.h>

enum { PATTERNS = 48, FINITE = 38, PAIR_SIZE = 2 * FLOAT_SIZE };

/* A row has a pattern and the same with the other sign. Finite ones come first, from zero upwards. */
static const uint32_t patterns[PATTERNS] = {
    0x00000000, 0x80000000, /* zeros */
    0x00000001, 0x80000001, /* smallest subnormals */
    0x00000002, 0x80000002, /* next to them */
    0x007FFFFE, 0x807FFFFE, /* next to the largest subnormals */
    0x007FFFFF, 0x807FFFFF, /* largest subnormals */
    0x00800000, 0x80800000, /* smallest normal numbers */
    0x00800001, 0x80800001, /* next to them */
    0x3F7FFFFF, 0xBF7FFFFF, /* next to one */
    0x3F800000, 0xBF800000, /* one */
    0x3F800001, 0xBF800001, /* next to one */
    0x3F8000FF, 0xBF8000FF, /* before a carry to the third byte */
    0x3F800100, 0xBF800100, /* behind it */
    0x3F80FFFF, 0xBF80FFFF, /* before a carry to the second */
    0x3F810000, 0xBF810000, /* behind it */
    0x3FFFFFFF, 0xBFFFFFFF, /* next to two */
    0x40000000, 0xC0000000, /* two */
    0x449A5225, 0xC49A5225, /* four bytes that differ */
    0x7F7FFFFE, 0xFF7FFFFE, /* next to the largest finite numbers */
    0x7F7FFFFF, 0xFF7FFFFF, /* largest finite numbers */
    0x7F800000, 0xFF800000, /* infinities */
    0x7F800001, 0xFF800001, /* signalling not-a-numbers */
    0x7FBFFFFF, 0xFFBFFFFF, /* the last of them */
    0x7FC00000, 0xFFC00000, /* quiet not-a-numbers */
    0x7FFFFFFF, 0xFFFFFFFF, /* the last of them */
};

/* Two places in the list. */
struct pair {
    size_t greatest, smallest;
};

/* Grows with the value: rows rise above zero and fall below it, and both zeros are 0. */
static int order_of(size_t finite) {
    const int row = (int)(finite / 2);
    return finite % 2 == 0 ? row : -row;
}

static bool is_well_formed(struct pair pair) {
    return pair.greatest < FINITE && pair.smallest < FINITE &&
           order_of(pair.smallest) <= order_of(pair.greatest);
}

/* Strictly greater or strictly smaller replaces, so the earlier of two zeros stays. */
static struct pair widened(struct pair pair, size_t finite) {
    return (struct pair){order_of(finite) > order_of(pair.greatest) ? finite : pair.greatest,
                         order_of(finite) < order_of(pair.smallest) ? finite : pair.smallest};
}

static void put_pattern(uint8_t *to, size_t pattern) {
    for (size_t i = 0; i < FLOAT_SIZE; i++)
        to[i] = (uint8_t)(patterns[pattern] >> (24 - 8 * i));
}

static void put_pair(uint8_t *to, struct pair pair) {
    put_pattern(to, pair.greatest);
    put_pattern(to + FLOAT_SIZE, pair.smallest);
}

/* Holds what both programs did to the order of the list. */
static void expect(bool good, const char *what, struct pair pair) {
    if (tally_case(good))
        printf("%s: greatest %08" PRIX32 ", smallest %08" PRIX32 ", floats %s\n", what,
               patterns[pair.greatest], patterns[pair.smallest], mode_names[both_mode]);
}

static void expect_kept(const uint8_t *record, size_t channel, struct pair pair) {
    uint8_t wanted[PAIR_SIZE];
    put_pair(wanted, pair);
    expect(memcmp(record + AT_PAIRS + channel * PAIR_SIZE, wanted, PAIR_SIZE) == 0, "not the pair kept",
           pair);
}

/* The pattern in one channel, neutral finite values with the sign in the others. */
static void one_reading(uint8_t *record, size_t channel, size_t pattern, size_t sign) {
    uint8_t sample[BOARD_SAMPLE_SIZE];
    for (size_t i = 0; i < CHANNELS; i++)
        put_pattern(sample + i * FLOAT_SIZE, i == channel ? pattern : 2 * i + sign);
    both_samples(record, sample);
}

/* The two patterns in one channel, and the pair read back. */
static void two_readings(const uint8_t *start, size_t channel, size_t first, size_t then) {
    const uint8_t number = (uint8_t)(channel + 1);
    uint8_t record[RECORD_SIZE];
    memcpy(record, start, RECORD_SIZE);
    one_reading(record, channel, first, 0);
    one_reading(record, channel, then, 1);
    both_frame(record, AMPLIFIER, 0x53, &number, 1);
    if (first < FINITE && then < FINITE)
        expect_kept(record, channel, widened((struct pair){first, first}, then));
}

static void every_two_readings(const struct settings *settings) {
    struct draw draw = draw_from(settings->seed);
    uint8_t start[RECORD_SIZE];
    for (unsigned flags = 0; flags <= FLAG_SENDING; flags += FLAG_SENDING) {
        draw_record(&draw, start, 0, false);
        start[AT_FLAGS] = (uint8_t)flags;
        for (size_t two = 0; two < PATTERNS * PATTERNS; two++) {
            for (size_t channel = 0; channel < CHANNELS; channel++)
                two_readings(start, channel, two / PATTERNS, two % PATTERNS);
        }
    }
}

/* A record that keeps the pair in one channel. */
static void take_pair(uint8_t *record, size_t channel, struct pair pair) {
    memcpy(record, factory_record, RECORD_SIZE);
    record[AT_FLAGS] |= FLAG_READING;
    put_pair(record + AT_PAIRS + channel * PAIR_SIZE, pair);
}

/* The pair in each channel read back, and in one channel with every pattern as the next reading. */
static void kept_pair(struct pair pair, size_t channel) {
    const bool good = is_well_formed(pair);
    uint8_t record[RECORD_SIZE], sample[BOARD_SAMPLE_SIZE] = {0};
    for (size_t i = 0; i < CHANNELS; i++) {
        const uint8_t number = (uint8_t)(i + 1);
        take_pair(record, i, pair);
        both_frame(record, AMPLIFIER, 0x53, &number, 1);
        expect(both_power_on(record).result == (good ? BOARD_DONE : BOARD_BAD_RECORD),
               good ? "a pair refused" : "a pair taken that is none", pair);
    }
    for (size_t i = 0; i < PATTERNS; i++) {
        take_pair(record, channel, pair);
        put_pattern(sample + channel * FLOAT_SIZE, i);
        both_samples(record, sample);
        expect_kept(record, channel, good && i < FINITE ? widened(pair, i) : pair);
    }
}

static void every_kept_pair(void) {
    for (size_t two = 0; two < PATTERNS * PATTERNS; two++)
        kept_pair((struct pair){two / PATTERNS, two % PATTERNS}, two % CHANNELS);
}

/* The smallest value above zero becomes the greatest behind a zero, and is no smallest beside one. */
static void smallest_above_zero(void) {
    static const uint8_t zero_then_above[] = {0, 0, 0, 1, 0, 0, 0, 0}, no_pair[] = {0, 0, 0, 0, 0, 0, 0, 1};
    uint8_t record[RECORD_SIZE], sample[BOARD_SAMPLE_SIZE] = {0};
    memcpy(record, factory_record, RECORD_SIZE);
    both_samples(record, sample);
    sample[FLOAT_SIZE - 1] = 1;
    both_samples(record, sample);
    expect(memcmp(record + AT_PAIRS, zero_then_above, PAIR_SIZE) == 0, "a peak lost", (struct pair){2, 0});
    memcpy(record + AT_PAIRS, no_pair, PAIR_SIZE);
    expect(both_power_on(record).result == BOARD_BAD_RECORD, "a pair taken that is none",
           (struct pair){0, 2});
}

/* On a processor that does not keep to the mode its cases would say nothing. */
static void check_mode(void) {
    if (tally_case(mode_tells_subnormals(both_mode) == (both_mode == MODE_USUAL)))
        printf("the processor does not take floats as in the mode %s\n", mode_names[both_mode]);
}

void run_readings(const struct settings *settings) {
    for (int mode = 0; mode < MODES; mode++) {
        both_mode = (enum mode)mode;
        check_mode();
        smallest_above_zero();
        every_two_readings(settings);
        every_kept_pair();
    }
    both_mode = MODE_USUAL;
}
