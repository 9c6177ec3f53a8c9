#include "report.h"

#include "board.h"
#include "screen.h"

#include <stdio.h>
#include <string.h>

static const char *plural(size_t count) { return count == 1 ? "" : "s"; }

/* Hex on as many lines as it takes, the words behind the last. */
static void tell_frame(const char *hex, const char *words, enum tone tone) {
    enum { WIDTH = 3 * BOARD_FRAME_SIZE };
    char row[2 + WIDTH];
    for (; strlen(hex) >= WIDTH; hex += WIDTH) {
        sprintf(row, "  %.*s", WIDTH - 1, hex);
        screen_line(row, TONE_PLAIN);
    }
    sprintf(row, "  %.*s", WIDTH - 1, hex);
    screen_row(row, words, tone);
}

void report_frame(struct report *report, struct stretch frame) {
    const bool measuring = frame.bytes[AT_HEAD] == MEASURING;
    char words[SAID_WORDS_MOST];
    struct veiled veiled;
    report_skipped(report);
    report->frames++;
    veil_frame(frame.bytes, frame.len, &veiled);
    said_words(frame, &veiled, report->unanswered == 1 ? report->command : NULL, words);
    if (report->hex)
        screen_line(veiled.hex, TONE_PLAIN);
    else
        tell_frame(veiled.hex, words, measuring || said_status(frame) == STATUS_DONE ? TONE_GOOD : TONE_BAD);
    if (!measuring)
        report->unanswered = 0;
    /* a code that was begun before it, or in it, goes on behind it */
    if (report->veil.left < veiled.left)
        report->veil.left = veiled.left;
}

/* A command of another number may be torn, and a command with a code stand in it. */
static bool is_torn(struct stretch frame, const struct veiled *veiled) {
    return veiled->hidden > 0 && !takes_code(KIND_OF(frame.bytes[AT_HEAD]), frame.bytes[AT_NUMBER]);
}

static void command_words(struct stretch frame, bool torn, char *words) {
    words += sprintf(words, "byte %zu, command: ", frame.place);
    if (torn)
        sprintf(words, "%s command %02X, and a code may stand in it",
                kind_words(KIND_OF(frame.bytes[AT_HEAD])), frame.bytes[AT_NUMBER]);
    else
        request_words(frame.bytes, words);
}

void report_command(struct report *report, struct stretch frame) {
    char words[2 * WORDS_MOST];
    struct veiled veiled;
    report_skipped(report);
    veil_frame(frame.bytes, frame.len, &veiled);
    const bool torn = is_torn(frame, &veiled);
    report->skipped += frame.len;
    report->in_commands += frame.len;
    /* the meaning of a reply to it would tell its bytes */
    report->unanswered += torn ? 2 : 1;
    report->veil = (struct veil){.left = veiled.left};
    memcpy(report->command, frame.bytes, frame.len);
    command_words(frame, torn, words);
    if (!report->hex)
        screen_row(veiled.hex, words, TONE_PLAIN);
}

static void show_byte(struct report *report, uint8_t byte) {
    struct lost *lost = &report->lost;
    const bool hidden = veil_hides(&report->veil, byte);
    if (lost->bytes++ >= SHOWN_MOST)
        return;
    char *hex = lost->hex + strlen(lost->hex);
    if (hidden)
        sprintf(hex, " ..");
    else
        sprintf(hex, " %02X", byte);
}

void report_skip(struct report *report, struct stretch bytes) {
    if (report->lost.bytes == 0)
        report->lost.place = bytes.place;
    for (size_t i = 0; i < bytes.len; i++)
        show_byte(report, bytes.bytes[i]);
    report->skipped += bytes.len;
    report->unanswered = 0;
}

/* Of a head among the bytes of a code the words would tell them. */
void report_head(struct report *report, struct stretch front, enum why why) {
    if (report->veil.left == 0 && report->lost.heads++ == 0)
        why_words(front, why, report->lost.words);
}

static void lost_words(const struct lost *lost, char *words) {
    words += sprintf(words, "%zu byte%s skipped at byte %zu:%s", lost->bytes, plural(lost->bytes),
                     lost->place, lost->hex);
    if (lost->bytes > SHOWN_MOST)
        words += sprintf(words, " and %zu more", lost->bytes - SHOWN_MOST);
    if (lost->heads > 0)
        words += sprintf(words, "; %s", lost->words);
    if (lost->heads > 1)
        sprintf(words, " (%zu heads in all)", lost->heads);
}

void report_skipped(struct report *report) {
    char words[2 * WORDS_MOST];
    if (report->lost.bytes == 0)
        return;
    lost_words(&report->lost, words);
    if (!report->hex)
        screen_line(words, TONE_NOTE);
    report->lost = (struct lost){.bytes = 0};
}

static void waiting_row(struct veil veil, struct stretch unread, char *words) {
    const size_t shown = unread.len < SHOWN_MOST ? unread.len : SHOWN_MOST;
    const bool hidden = veil.left > 0;
    char hex[3 * SHOWN_MOST];
    veil_hex(&veil, unread.bytes, shown, hex);
    words += sprintf(words, "%zu byte%s unread at byte %zu: %s", unread.len, plural(unread.len), unread.place,
                     hex);
    if (unread.len > shown)
        words += sprintf(words, " and %zu more", unread.len - shown);
    if (hidden)
        strcpy(words, "; a code may go on there");
    else
        unread_words(unread, words + sprintf(words, "; "));
}

void report_unread(const struct report *report, struct stretch held, struct stretch unread) {
    char words[2 * WORDS_MOST];
    struct veil veil = report->veil;
    if (unread.len == 0)
        return;
    for (size_t i = 0; i < held.len; i++)
        veil_hides(&veil, held.bytes[i]);
    waiting_row(veil, unread, words);
    if (report->hex)
        fprintf(stderr, "desk: %s\n", words);
    else
        screen_line(words, TONE_NOTE);
}

static void skipped_sum(const struct report *report, char *words) {
    sprintf(words, "%zu byte%s skipped (%zu in commands)", report->skipped, plural(report->skipped),
            report->in_commands);
}

void report_end(const struct report *report, struct stretch unread) {
    char skipped[WORDS_MOST], words[2 * WORDS_MOST];
    skipped_sum(report, skipped);
    fflush(stdout);
    if (report->hex && report->skipped > 0)
        fprintf(stderr, "desk: %s\n", skipped);
    report_unread(report, (struct stretch){NULL, 0, 0}, unread);
    sprintf(words, "%zu frame%s of the board, %s, %zu byte%s unread", report->frames, plural(report->frames),
            skipped, unread.len, plural(unread.len));
    if (!report->hex)
        screen_line(words, TONE_PLAIN);
}
