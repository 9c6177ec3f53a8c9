#define _POSIX_C_SOURCE 200809L
#include "lines.h"

#include "fields.h"
#include "help.h"
#include "line.h"
#include "show.h"

#include <errno.h>
#include <stdio.h>
#include <stdlib.h>
#include <string.h>
#include <unistd.h>

/* Beside the ways to end: the line was quit. */
enum { LINE_QUIT = -1 };

static int take_bytes(struct session *session, struct line line, struct line_fault *fault) {
    size_t count;
    uint8_t *bytes = malloc(line.len / 2 + 1);
    if (bytes == NULL) {
        fprintf(stderr, "desk: no memory for a line of %zu characters\n", line.len);
        return EXIT_USAGE;
    }
    const bool good = line_bytes(line, bytes, &count, fault);
    const int status = good ? session_bytes(session, bytes, count) : EXIT_USAGE;
    free(bytes);
    return status;
}

static int take_sample(struct session *session, struct line line, size_t at, struct line_fault *fault) {
    float sample[CHANNELS];
    if (!line_numbers(line, at, sample, CHANNELS, fault))
        return EXIT_USAGE;
    return session_sample(session, sample);
}

static int take_show(const struct session *session, struct line line, size_t at, struct line_fault *fault) {
    size_t behind;
    const bool code = line_says(line, at, "code", &behind);
    if (!line_ends(line, code ? behind : at, fault))
        return EXIT_USAGE;
    show_record(session->record, code);
    return EXIT_DONE;
}

static int take_word(struct session *session, enum word word, struct line line, size_t at,
                     struct line_fault *fault) {
    if (word == WORD_SAMPLE)
        return take_sample(session, line, at, fault);
    if (word == WORD_SHOW)
        return take_show(session, line, at, fault);
    if (word == WORD_READ)
        line_misplaced(line, fault);
    if (word == WORD_READ || !line_ends(line, at, fault))
        return EXIT_USAGE;
    if (word == WORD_FACTORY)
        return session_factory(session);
    if (word == WORD_POWER_ON)
        return session_power_on(session);
    if (word == WORD_QUIT)
        return LINE_QUIT;
    print_help();
    return EXIT_DONE;
}

/* The answers are out before the next line is asked for. */
static int take_line(struct session *session, struct line line, size_t number) {
    struct line_fault fault = {0, "", false};
    size_t behind;
    const enum word word = line_word(line, &behind);
    const int status = word == WORD_NONE ? take_bytes(session, line, &fault)
                                         : take_word(session, word, line, behind, &fault);
    fflush(stdout);
    if (fault.place > 0)
        fprintf(stderr, "desk: line %zu, place %zu: %s%s\n", number, fault.place, fault.words,
                fault.letter ? "; 'help' lists the words that may start a line" : "");
    return status;
}

/* A refused call is remembered. A bad line is the end, but not for somebody who can type it anew. */
static bool goes_on(int now, bool terminal, int *status) {
    if (now == LINE_QUIT)
        return false;
    if (now == EXIT_REFUSED)
        *status = EXIT_REFUSED;
    if (now != EXIT_USAGE || terminal)
        return true;
    *status = EXIT_USAGE;
    return false;
}

void ask(const char *prompt) {
    FILE *to = isatty(STDOUT_FILENO) == 1 ? stdout : stderr;
    fputs(prompt, to);
    fflush(to);
}

int take_input(struct session *session) {
    const bool terminal = isatty(STDIN_FILENO) == 1;
    char *text = NULL;
    size_t room = 0;
    ssize_t len;
    int status = EXIT_DONE;
    for (size_t number = 1;; number++) {
        ask(terminal ? "desk> " : "");
        len = getline(&text, &room, stdin);
        if (len < 0 ||
            !goes_on(take_line(session, (struct line){text, (size_t)len}, number), terminal, &status))
            break;
    }
    if (ferror(stdin) != 0) {
        fprintf(stderr, "desk: the input cannot be read: %s\n", strerror(errno));
        status = EXIT_USAGE;
    }
    if (terminal && len < 0)
        puts("");
    free(text);
    return status;
}

int take_text(struct session *session, const char *text) {
    int status = EXIT_DONE;
    for (size_t number = 1;; number++) {
        const struct line line = {text, strcspn(text, "\n")};
        if (!goes_on(take_line(session, line, number), false, &status) || text[line.len] == '\0')
            return status;
        text += line.len + 1;
    }
}
