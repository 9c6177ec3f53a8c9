/* The library reads; the desk hunts in what it skipped, so that commands are told from noise. */
#include "capture.h"

#include "hunt.h"
#include "session.h"

#include <string.h>

static struct stretch stretch(const struct capture *capture, size_t from, size_t to) {
    return (struct stretch){capture->bytes + from, to - from, capture->place + from};
}

/* A command's head whose frame would go on behind the skipped bytes; returns how many are done with. */
static size_t skip_open(struct capture *capture, size_t at, size_t end, size_t known) {
    const bool followed = end < known;
    const size_t len = followed ? 1 : end - at;
    report_head(&capture->report, stretch(capture, at, known), followed ? WHY_GOES_ON : WHY_ENDS);
    report_skip(&capture->report, stretch(capture, at, at + len));
    return len;
}

/* A frame of the board that starts in skipped bytes has a wrong end, or it had not been skipped. */
static void skip_piece(struct capture *capture, struct piece piece, size_t at, size_t known) {
    const struct stretch front = stretch(capture, at, known);
    if (piece.kind == PIECE_FRAME) {
        report_command(&capture->report, stretch(capture, at, at + piece.len));
        return;
    }
    if (piece.kind == PIECE_BROKEN || said_size(front.bytes, front.len) > 0)
        report_head(&capture->report, front, WHY_BROKEN);
    report_skip(&capture->report, stretch(capture, at, at + piece.len));
}

/* With more to come an open command waits; returns where. How the bytes were cut makes no difference. */
static size_t take_skipped(struct capture *capture, size_t at, size_t end, size_t known, bool more) {
    while (at < end) {
        const struct piece piece = next_piece(capture->bytes + at, (more ? end : known) - at);
        const bool open = piece.kind == PIECE_WAITING || (piece.kind == PIECE_FRAME && piece.len > end - at);
        if (open && more)
            break;
        if (open)
            at += skip_open(capture, at, end, known);
        else {
            skip_piece(capture, piece, at, known);
            at += piece.len;
        }
    }
    return at;
}

/* The frame of an entry; it is empty if no such frame stands there. */
static struct stretch frame_of(const struct capture *capture, const uint32_t *entry, size_t at) {
    const size_t data = capture->held + entry[BOARD_ENTRY_PLACE];
    const size_t size = FRAME_AROUND + (size_t)entry[BOARD_ENTRY_COUNT];
    const struct stretch none = {NULL, 0, 0};
    if (data < at + AT_DATA || data - AT_DATA + size > capture->len)
        return none;
    const struct stretch frame = stretch(capture, data - AT_DATA, data - AT_DATA + size);
    const bool good = said_size(frame.bytes, size) == size && frame.bytes[size - 1] == FRAME_END &&
                      frame.bytes[AT_HEAD] == entry[BOARD_ENTRY_HEAD] &&
                      said_status(frame) == entry[BOARD_ENTRY_STATUS];
    return good ? frame : none;
}

/* Where the last frame ends, or 0 if the desk does not find one that is listed. */
static size_t take_frames(struct capture *capture, const uint32_t *list, size_t entries, size_t *in_frames) {
    size_t at = 0;
    *in_frames = 0;
    for (size_t i = 0; i < entries; i++) {
        const struct stretch frame = frame_of(capture, list + BOARD_ENTRY_NUMBERS * i, at);
        if (frame.len == 0)
            return 0;
        const size_t from = frame.place - capture->place;
        take_skipped(capture, at, from, from + frame.len, false);
        report_frame(&capture->report, frame);
        at = from + frame.len;
        *in_frames += frame.len;
    }
    return at;
}

/* What is not told yet goes in front of the next bytes. */
static void keep_rest(struct capture *capture, size_t at, size_t end) {
    at = take_skipped(capture, at, end, capture->len, true);
    capture->held = end - at;
    capture->len -= at;
    capture->place += at;
    memmove(capture->bytes, capture->bytes + at, capture->len);
}

/* Bytes are left unread only where a frame starts, and fewer than the longest has. */
static bool may_wait(const struct capture *capture, size_t at, size_t unread) {
    return unread == 0 || (unread < SAID_MOST && at + unread <= capture->len &&
                           capture->bytes[capture->len - unread] == FRAME_START);
}

static int read_part(struct capture *capture) {
    static uint32_t list[BOARD_ENTRY_NUMBERS * BOARD_ENTRIES(BOARD_CAPTURE_MOST)];
    const size_t len = capture->len - capture->held;
    const struct board_reading reading =
        board_read(capture->bytes + capture->held, len, list, sizeof list / sizeof *list);
    size_t in_frames;
    if (reading.result != BOARD_DONE)
        return session_refused("read", reading.result);
    if (reading.entries > BOARD_ENTRIES(len))
        return session_disagrees("the number of frames");
    const size_t at = take_frames(capture, list, reading.entries, &in_frames);
    if (at == 0 && reading.entries > 0)
        return session_disagrees("where a frame stands");
    if (!may_wait(capture, at, reading.unread))
        return session_disagrees("the bytes unread");
    if (in_frames + reading.skipped + reading.unread != len)
        return session_disagrees("the bytes skipped");
    keep_rest(capture, at, capture->len - reading.unread);
    return EXIT_DONE;
}

int capture_bytes(struct capture *capture, const uint8_t *bytes, size_t len) {
    for (size_t at = 0; at < len;) {
        const size_t room = sizeof capture->bytes - capture->len;
        const size_t cut = len - at < room ? len - at : room;
        memcpy(capture->bytes + capture->len, bytes + at, cut);
        capture->len += cut;
        at += cut;
        const int status = read_part(capture);
        if (status != EXIT_DONE)
            return status;
    }
    return EXIT_DONE;
}

static struct stretch unread(const struct capture *capture) {
    return stretch(capture, capture->held, capture->len);
}

void capture_unread(const struct capture *capture) {
    report_unread(&capture->report, stretch(capture, 0, capture->held), unread(capture));
}

void capture_end(struct capture *capture) {
    take_skipped(capture, 0, capture->held, capture->len, false);
    report_skipped(&capture->report);
    report_end(&capture->report, unread(capture));
}
