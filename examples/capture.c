/* A desk in small: bytes from a board arrive in cuts, and what the board said is printed. */
#include "board.h"

#include <stdio.h>
#include <stdlib.h>
#include <string.h>

/* The serial line hands over what has arrived, here at most 40 bytes at once. */
enum { CUT = 40 };

/* What was left unread and the next cut. An unfinished frame has at most 273 bytes, so there is room. */
static uint8_t capture[BOARD_CAPTURE_MOST];
static uint32_t list[BOARD_ENTRY_NUMBERS * BOARD_ENTRIES(BOARD_CAPTURE_MOST)];

static void show_entry(const uint32_t *entry) {
    const uint8_t *data = capture + entry[BOARD_ENTRY_PLACE];
    printf("  %s %02X, status %02X", entry[BOARD_ENTRY_HEAD] == 0x15 ? "measuring frame" : "reply",
           (unsigned)entry[BOARD_ENTRY_HEAD], (unsigned)entry[BOARD_ENTRY_STATUS]);
    for (uint32_t i = 0; i < entry[BOARD_ENTRY_COUNT]; i++)
        printf("%s%02X", i == 0 ? ": " : " ", data[i]);
    printf("\n");
}

/* Answers how many bytes are unread; they move to the front, to be given again with those that follow. */
static size_t read_capture(size_t len) {
    const struct board_reading reading = board_read(capture, len, list, sizeof list / sizeof *list);
    if (reading.result != BOARD_DONE) {
        printf("read refused: %u\n", (unsigned)reading.result);
        exit(1);
    }
    for (uint32_t i = 0; i < reading.entries; i++)
        show_entry(list + BOARD_ENTRY_NUMBERS * i);
    printf("  %u skipped, %u unread\n", (unsigned)reading.skipped, (unsigned)reading.unread);
    memmove(capture, capture + len - reading.unread, reading.unread);
    return reading.unread;
}

int main(void) {
    /* A byte of noise, a reply, values of six channels, a name of 15 bytes, a refusal, half of a reply. */
    static const uint8_t line[] = {0x00, 0xAA, 0x50, 0x00, 0x85, 0xAA, 0x15, 0xB0, 0x3F, 0x80, 0,    0,
                                   0x40, 0,    0,    0,    0xC0, 0x40, 0,    0,    0,    0,    0,    0,
                                   0x80, 0,    0,    0,    0x3F, 0,    0,    0,    0x85, 0xAA, 0x6F, 0x00,
                                   'f',  'i',  'f',  't',  'e',  'e',  'n',  ' ',  'l',  'e',  't',  't',
                                   'e',  'r',  's',  0x85, 0xAA, 0x60, 0x54, 0x85, 0xAA, 0x61, 0x00};
    size_t unread = 0;
    for (size_t at = 0; at < sizeof line; at += CUT) {
        const size_t cut = sizeof line - at < CUT ? sizeof line - at : CUT;
        printf("received %zu bytes\n", cut);
        memcpy(capture + unread, line + at, cut);
        unread = read_capture(unread + cut);
    }
    return 0;
}
