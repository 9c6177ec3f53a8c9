#define _POSIX_C_SOURCE 200809L
#include "feed.h"

#include "capture.h"
#include "content.h"
#include "lines.h"

#include <errno.h>
#include <stdio.h>
#include <stdlib.h>
#include <string.h>
#include <sys/stat.h>
#include <unistd.h>

/* A file is looked at as a whole before it is taken; what comes bit by bit is taken line by line. */
struct feed {
    FILE *file;
    const char *name;
    bool whole, terminal, raw;
    char *text; /* what was read last */
    size_t len, room, lines;
    struct capture capture;
};

static void *memory(void *old, size_t size) {
    void *new = realloc(old, size);
    if (new != NULL)
        return new;
    fputs("desk: no memory for the capture\n", stderr);
    exit(EXIT_USAGE);
}

static void put(struct feed *feed, int c) {
    if (feed->len == feed->room) {
        feed->room *= 2;
        feed->text = memory(feed->text, feed->room);
    }
    feed->text[feed->len++] = (char)c;
}

/* Up to the end of a line, or to a byte that no text has: raw bytes may have no lines. */
static void collect(struct feed *feed) {
    bool remark = false;
    unsigned due = 0;
    for (int c; (c = getc(feed->file)) != EOF;) {
        put(feed, c);
        remark = remark || c == '#';
        const bool text = is_text((unsigned char)c, &due);
        if (!feed->whole && (c == '\n' || (!text && !remark)))
            return;
    }
}

/* A file is decided by all of it, a pipe by its first line that says anything. */
static void decide(struct feed *feed) {
    enum content content;
    do {
        const size_t from = feed->len;
        collect(feed);
        const size_t len = feed->len - from;
        uint8_t *bytes = memory(NULL, len / 2 + 1);
        content = content_of((struct line){feed->text + from, len}, bytes);
        free(bytes);
    } while (content == CONTENT_NONE && feof(feed->file) == 0 && ferror(feed->file) == 0);
    feed->raw = is_raw((struct line){feed->text, feed->len}, content);
}

static int unreadable(const char *name) {
    const int cause = errno;
    fflush(stdout);
    fprintf(stderr, "desk: %s cannot be read: %s\n", name, strerror(cause));
    return EXIT_USAGE;
}

static void tell_content(const struct feed *feed) {
    const char *content = feed->raw ? "taken as raw bytes" : "taken as hex text";
    if (!feed->capture.report.hex)
        printf("%s is %s\n", feed->name, feed->len > 0 || feed->terminal ? content : "empty");
}

/* A bad line is the end, but not for somebody who can type it anew. */
static int take_line(struct feed *feed, struct line line) {
    struct line_fault fault = {0, "", false};
    uint8_t *bytes = memory(NULL, line.len / 2 + 1);
    size_t count;
    int status = feed->terminal ? EXIT_DONE : EXIT_USAGE;
    const bool good = line_bytes(line, bytes, &count, &fault);
    if (good)
        status = capture_bytes(&feed->capture, bytes, count);
    free(bytes);
    if (!feed->whole || !good)
        report_skipped(&feed->capture.report);
    if (feed->terminal)
        capture_unread(&feed->capture);
    fflush(stdout);
    feed->lines++;
    if (!good)
        fprintf(stderr, "desk: line %zu, place %zu: %s\n", feed->lines, fault.place, fault.words);
    return status;
}

/* What was read: raw bytes, or lines. */
static int take(struct feed *feed) {
    int status = EXIT_DONE;
    if (feed->raw)
        status = capture_bytes(&feed->capture, (const uint8_t *)feed->text, feed->len);
    for (size_t at = 0; !feed->raw && status == EXIT_DONE && at < feed->len;) {
        const struct line line = first_line((struct line){feed->text + at, feed->len - at});
        status = take_line(feed, line);
        at += line.len + 1;
    }
    fflush(stdout);
    return status;
}

/* Every frame of the board ends in 85, so raw bytes are taken up to there. */
static bool read_more(struct feed *feed) {
    ask(feed->terminal ? "read> " : "");
    const ssize_t len = getdelim(&feed->text, &feed->room, feed->raw ? FRAME_END : '\n', feed->file);
    feed->len = len < 0 ? 0 : (size_t)len;
    return len >= 0;
}

static int take_all(struct feed *feed) {
    if (!feed->terminal)
        decide(feed);
    if (ferror(feed->file) != 0)
        return unreadable(feed->name);
    tell_content(feed);
    int status = take(feed);
    while (status == EXIT_DONE && read_more(feed))
        status = take(feed);
    if (ferror(feed->file) != 0)
        return unreadable(feed->name);
    if (feed->terminal)
        puts("");
    /* where the library is not understood nothing more can be told */
    if (status != EXIT_REFUSED)
        capture_end(&feed->capture);
    return status;
}

static bool is_file(FILE *file) {
    struct stat state;
    return fstat(fileno(file), &state) == 0 && S_ISREG(state.st_mode);
}

int read_capture(const char *path, bool hex) {
    enum { ROOM_FIRST = 256 };
    const bool named = path != NULL && strcmp(path, "-") != 0;
    struct feed feed = {.name = named ? path : "the input", .room = ROOM_FIRST};
    feed.file = named ? fopen(path, "rb") : stdin;
    if (feed.file == NULL)
        return unreadable(path);
    feed.whole = is_file(feed.file);
    feed.terminal = !named && isatty(STDIN_FILENO) == 1;
    feed.capture.report.hex = hex;
    feed.text = memory(NULL, feed.room);
    const int status = take_all(&feed);
    free(feed.text);
    if (named)
        fclose(feed.file);
    return status;
}
