/* What a board said: a capture of any length, read by the library part by part. */
#ifndef CAPTURE_H
#define CAPTURE_H

#include "board.h"
#include "report.h"

/* The front of what is still to be told: skipped bytes that may become a command, then those left unread. */
struct capture {
    struct report report;
    uint8_t bytes[BOARD_CAPTURE_MOST];
    size_t held, len, place;
};

/* The next bytes, however many. Returns how the program would end. */
int capture_bytes(struct capture *capture, const uint8_t *bytes, size_t len);

/* Tells the bytes so far that the library leaves unread. */
void capture_unread(const struct capture *capture);

/* Tells the rest and the sum of all. */
void capture_end(struct capture *capture);

#endif
