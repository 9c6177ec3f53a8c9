/* Captures of what a board says: every frame around its end, torn, nested, written by the board and drawn. */
#include "both_read.h"
#include "parts.h"
#include "sessions.h"
#include "tally.h"

#include <string.h>

enum { BYTE_VALUES = 256, SENT_MOST = 274, NUMBERS = BOARD_ENTRY_NUMBERS };

/* The size of a frame with this head and third byte, as if every head were a reply's. */
static size_t size_of(unsigned head, unsigned third) { return head % 16 == 15 ? 19 + third : 4 + head % 16; }

static size_t put_sent(uint8_t *to, unsigned head, unsigned third, size_t size, uint8_t filling) {
    memset(to, filling, size);
    to[0] = 0xAA;
    to[1] = (uint8_t)head;
    to[2] = (uint8_t)third;
    to[size - 1] = 0x85;
    return size;
}

/* A byte short, whole, and with a byte behind; then with a wrong last byte and an 85 in front of it. */
static void around_end(unsigned head, unsigned third, size_t size) {
    uint8_t bytes[SENT_MOST + 1];
    bytes[put_sent(bytes, head, third, size, 0x00)] = 0xAA;
    for (size_t len = size - 1; len <= size + 1; len++)
        both_capture(bytes, len, 0);
    put_sent(bytes, head, third, size, 0x85);
    bytes[size - 1] ^= (uint8_t)(1u << third % 8);
    for (size_t len = size - 1; len <= size + 1; len++)
        both_capture(bytes, len, 0);
}

/* Heads next to a measuring frame's have its size too. */
static void every_head(void) {
    for (unsigned head = 0; head < BYTE_VALUES; head++) {
        for (unsigned third = 0; third < BYTE_VALUES; third++) {
            around_end(head, third, size_of(head, third));
            if (head / 16 == 1 || head % 16 == 5)
                around_end(head, third, BOARD_FRAME_SIZE);
        }
    }
}

static void every_length_of(unsigned head, unsigned third, size_t size) {
    uint8_t bytes[SENT_MOST + 1];
    bytes[put_sent(bytes, head, third, size, 0x85)] = 0x00;
    for (size_t len = 0; len <= size + 1; len++)
        both_capture(bytes, len, 0);
}

/* For the last three heads the third byte decides how long they wait, or that they do not. */
static void every_length(void) {
    for (unsigned head = 0x50; head <= 0x6F; head++)
        every_length_of(head, 0x00, size_of(head, 0x00));
    for (unsigned third = 0; third < BYTE_VALUES; third++) {
        every_length_of(0x5F, third, size_of(0x5F, third));
        every_length_of(0x6F, third, size_of(0x6F, third));
        every_length_of(0x15, third, BOARD_FRAME_SIZE);
    }
}

/* A frame with another one at every place in it or behind it, both whole or one of them torn by the other. */
static void every_nest_of(unsigned head, unsigned third, size_t size) {
    static const struct inner {
        unsigned head, third;
        size_t size;
    } inners[] = {{0x50, 0x00, 4},         {0x61, 0xAA, 5},
                  {0x6F, 0x00, 19},        {0x5F, 0x00, 19},
                  {0x5F, 0x01, 19 + 0x01}, {0x6F, 0x85, 19 + 0x85},
                  {0x5F, 0xFF, SENT_MOST}, {0x15, 0xB0, BOARD_FRAME_SIZE}};
    uint8_t bytes[2 * SENT_MOST];
    for (size_t i = 0; i < sizeof inners / sizeof *inners; i++) {
        for (size_t at = 1; at <= size; at++) {
            const size_t len = at + inners[i].size < size ? size : at + inners[i].size;
            put_sent(bytes, head, third, size, 0x00);
            put_sent(bytes + at, inners[i].head, inners[i].third, inners[i].size, 0xAA);
            both_capture(bytes, len, 0);
            bytes[size - 1] ^= 0x85;
            both_capture(bytes, len, 0);
            bytes[size - 1] = 0x85;
            both_capture(bytes, len, 0);
        }
    }
}

static void every_nest(void) {
    static const unsigned thirds[] = {0x00, 0x85, 0xAA, 0xB0, 0xFF};
    for (size_t i = 0; i < sizeof thirds / sizeof *thirds; i++) {
        for (unsigned head = 0x50; head <= 0x6F; head++)
            every_nest_of(head, thirds[i], size_of(head, thirds[i]));
        every_nest_of(0x15, thirds[i], BOARD_FRAME_SIZE);
    }
}

/* Bytes that are repeated. */
struct filling {
    size_t size;
    const uint8_t *bytes;
};

static const struct filling noise = {1, (const uint8_t[]){0x00}};
static const struct filling alike = {1, (const uint8_t[]){0xAA}};
static const struct filling replies = {4, (const uint8_t[]){0xAA, 0x50, 0x00, 0x85}};
static const struct filling torn = {4, (const uint8_t[]){0xAA, 0x5F, 0xFF, 0x00}};
static const struct filling measuring = {
    BOARD_FRAME_SIZE, (const uint8_t[BOARD_FRAME_SIZE]){0xAA, 0x15, 0xB0, [BOARD_FRAME_SIZE - 1] = 0x85}};

static const uint8_t *filled(size_t len, const struct filling *filling) {
    static uint8_t bytes[CAPTURE_ROOM];
    for (size_t i = 0; i < len; i++)
        bytes[i] = filling->bytes[i % filling->size];
    return bytes;
}

/* An empty buffer is lent by a pointer and by a null pointer. */
static void give(const uint8_t *capture, size_t len, size_t list_len) {
    const int ways = len == 0 || list_len == 0 ? 2 : 1;
    for (int null = 0; null < ways; null++)
        both_read(&(struct captured){capture, len, list_len, null == 1});
}

/* From one entry too few to one too many, no list, and lists that are none in their low 16 bits. */
static void every_list_of(const uint8_t *capture, size_t len) {
    const size_t asked = NUMBERS * BOARD_ENTRIES(len), least = asked < NUMBERS ? 0 : asked - NUMBERS;
    for (size_t list_len = least; list_len <= asked + NUMBERS && list_len <= LIST_ROOM; list_len++)
        give(capture, len, list_len);
    give(capture, len, 0);
    give(capture, len, 0x10000);
}

static void every_list(void) {
    static const struct filling *const fillings[] = {&noise, &alike, &replies, &torn};
    static const size_t lengths[] = {255,  256,  1023, 1024, 4091,  4092,    4093,    4094,
                                     4095, 4096, 4097, 8192, 65535, 0x10000, 0x10004, 0x11000};
    for (size_t i = 0; i < sizeof fillings / sizeof *fillings; i++) {
        for (size_t len = 0; len <= 64; len++)
            every_list_of(filled(len, fillings[i]), len);
        for (size_t k = 0; k < sizeof lengths / sizeof *lengths; k++)
            every_list_of(filled(lengths[k], fillings[i]), lengths[k]);
    }
}

/* Holds what both programs left to what is known without them. */
static void expect(bool good, const char *what, struct board_reading seen) {
    if (tally_case(good))
        show_reading(what, seen, NULL, 0);
}

/* The longest capture, with counts worked out by hand. */
static void count_most(const struct filling *filling, uint32_t entries, uint32_t skipped, uint32_t unread) {
    const struct board_reading seen =
        both_capture(filled(BOARD_CAPTURE_MOST, filling), BOARD_CAPTURE_MOST, 0).answer;
    const struct board_reading wanted = {BOARD_DONE, entries, skipped, unread};
    expect(same_reading(seen, wanted), "other counts than by hand", seen);
}

static void every_most(void) {
    count_most(&noise, 0, 4096, 0);
    count_most(&alike, 0, 4095, 1);
    count_most(&replies, 1024, 0, 0);
    /* The first head that lacks bytes is that at 3,824: 274 from there end at 4,098. */
    count_most(&torn, 0, 3824, 272);
    /* 146 times 28 are 4,088. */
    count_most(&measuring, 146, 0, 8);
}

/* An item of a drawn capture is at most so long. */
enum { ITEM_MOST = SENT_MOST };

/* Mostly bytes that mean something to the reader; small ones are third bytes of not so long replies. */
static uint8_t draw_telling(struct draw *draw) {
    static const uint8_t telling[] = {0xAA, 0xAA, 0xAA, 0x50, 0x51, 0x5E, 0x5F, 0x60, 0x62, 0x6E,
                                      0x6F, 0x15, 0xB0, 0x85, 0x85, 0x85, 0x00, 0x01, 0x02};
    return draw_below(draw, 8) == 0 ? draw_byte(draw) : draw_one(draw, telling, sizeof telling);
}

static size_t put_noise(struct draw *draw, uint8_t *to) {
    const size_t len = 1 + draw_below(draw, 64);
    for (size_t i = 0; i < len; i++)
        to[i] = draw_telling(draw);
    return len;
}

/* Mostly not so long, but of every size. */
static size_t put_good(struct draw *draw, uint8_t *to) {
    const unsigned head = draw_below(draw, 4) == 0 ? 0x15 : 0x50 + draw_below(draw, 32);
    const unsigned third = head == 0x15 ? 0xB0 : draw_below(draw, draw_below(draw, 4) == 0 ? BYTE_VALUES : 8);
    const size_t size = head == 0x15 ? BOARD_FRAME_SIZE : size_of(head, third);
    put_sent(to, head, third, size, 0x00);
    for (size_t i = 3; i < size - 1; i++)
        to[i] = draw_telling(draw);
    return size;
}

/* Good, with a byte changed, cut, or noise; a cut one has those behind it for its own bytes. */
static size_t put_item(struct draw *draw, uint8_t *to) {
    const size_t size = put_good(draw, to);
    switch (draw_below(draw, 8)) {
    case 0:
        to[draw_below(draw, (uint32_t)size)] = draw_telling(draw);
        return size;
    case 1:
        return draw_below(draw, (uint32_t)size);
    case 2:
        return put_noise(draw, to);
    default:
        return size;
    }
}

/* Whether the entries of a part that begins there are these of the whole. */
static bool are_of(const struct left *part, size_t from, const uint32_t *whole) {
    for (size_t i = 0; i < NUMBERS * part->answer.entries; i++) {
        const size_t moved = i % NUMBERS == BOARD_ENTRY_PLACE ? from : 0;
        if (part->list[i] + moved != whole[i])
            return false;
    }
    return true;
}

/* What is unread is given again with what follows, and then nothing is lost by a cut. */
static void one_cut(struct draw *draw, const uint8_t *capture, size_t len) {
    static uint32_t list[BOARD_CAPTURE_MOST];
    const size_t cut = draw_below(draw, (uint32_t)len + 1);
    const struct left whole = both_capture(capture, len, draw_below(draw, NUMBERS));
    if (!whole.good)
        return;
    memcpy(list, whole.list, NUMBERS * whole.answer.entries * sizeof *list);
    const struct left first = both_capture(capture, cut, draw_below(draw, NUMBERS));
    if (!first.good)
        return;
    const bool begun = are_of(&first, 0, list);
    const size_t from = cut - first.answer.unread;
    const struct left rest = both_capture(capture + from, len - from, draw_below(draw, NUMBERS));
    const struct board_reading sum = {BOARD_DONE, first.answer.entries + rest.answer.entries,
                                      first.answer.skipped + rest.answer.skipped, rest.answer.unread};
    expect(begun && rest.good && same_reading(sum, whole.answer) &&
               are_of(&rest, from, list + NUMBERS * first.answer.entries),
           "a cut changes what is read", rest.answer);
}

static void one_drawn(struct draw *draw) {
    static uint8_t capture[BOARD_CAPTURE_MOST + ITEM_MOST];
    const size_t most = draw_below(draw, 32) == 0 ? BOARD_CAPTURE_MOST : 1 + draw_below(draw, 400);
    for (size_t len = 0; len < most;)
        len += put_item(draw, capture + len);
    one_cut(draw, capture, most);
}

void run_captures(const struct settings *settings) {
    struct draw draw = draw_from(settings->seed);
    every_head();
    every_length();
    every_nest();
    every_list();
    every_most();
    every_session(&draw);
    const unsigned long before = tally.passed + tally.failed;
    while (tally.passed + tally.failed - before < settings->calls)
        one_drawn(&draw);
}
