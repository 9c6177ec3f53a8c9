/* The desk: frames typed in hex go to a board, and what it answers is told in words; so is what one said. */
#include "feed.h"
#include "help.h"
#include "lines.h"
#include "page.h"
#include "screen.h"

#include <stdio.h>
#include <stdlib.h>
#include <string.h>

struct options {
    const char *record;
    bool hex;
    void (*print)(void); /* NULL, or what is asked for instead of a board */
    char *text;          /* NULL if lines are to be read */
    bool read;           /* a capture instead of lines */
    const char *capture; /* NULL, or its file */
};

static void add_word(struct options *options, const char *word) {
    const size_t len = options->text == NULL ? 0 : strlen(options->text);
    char *text = realloc(options->text, len + strlen(word) + 2);
    if (text == NULL) {
        fputs("desk: no memory for the line\n", stderr);
        exit(EXIT_USAGE);
    }
    sprintf(text + len, "%s%s", len == 0 ? "" : " ", word);
    options->text = text;
}

static bool is_text(const char *word, struct options *options) {
    static const struct {
        const char *option;
        void (*print)(void);
    } texts[] = {{"--help", print_help}, {"--version", print_version}, {"--commands", print_page}};
    for (size_t i = 0; i < sizeof texts / sizeof *texts; i++) {
        if (strcmp(word, texts[i].option) == 0) {
            options->print = texts[i].print;
            return true;
        }
    }
    return false;
}

static int bad_usage(const char *words, const char *option) {
    fprintf(stderr, "desk: %s %s; --help tells what there is\n", words, option);
    return EXIT_USAGE;
}

/* A word of a line, or read and its file. */
static int take_word(struct options *options, const char *word) {
    if (options->text == NULL && !options->read && strcmp(word, "read") == 0)
        options->read = true;
    else if (!options->read)
        add_word(options, word);
    else if (*word == '\0')
        return bad_usage("a file is due behind", "read");
    else if (options->capture != NULL)
        return bad_usage("one file alone is due behind", "read");
    else
        options->capture = word;
    return EXIT_DONE;
}

static int read_options(int count, char **words, struct options *options) {
    int status = EXIT_DONE;
    for (int i = 1; i < count && status == EXIT_DONE; i++) {
        if (strncmp(words[i], "--", 2) != 0)
            status = take_word(options, words[i]);
        else if (strcmp(words[i], "--hex") == 0)
            options->hex = true;
        else if (is_text(words[i], options))
            continue;
        else if (strcmp(words[i], "--record") != 0)
            return bad_usage("there is no option", words[i]);
        else if (++i < count && *words[i] != '\0')
            options->record = words[i];
        else
            return bad_usage("a file is due behind", "--record");
    }
    return status;
}

static int run(const struct options *options) {
    struct session session;
    if (options->print != NULL) {
        options->print();
        return EXIT_DONE;
    }
    if (options->read && options->record != NULL)
        return bad_usage("no record goes with", "read");
    if (options->read)
        return read_capture(options->capture, options->hex);
    int status = session_start(&session, options->record, options->hex);
    if (status != EXIT_DONE)
        return status;
    status = options->text == NULL ? take_input(&session) : take_text(&session, options->text);
    session_end(&session);
    return status;
}

int main(int count, char **words) {
    struct options options = {.record = NULL};
    screen_start();
    int status = read_options(count, words, &options);
    if (status == EXIT_DONE)
        status = run(&options);
    free(options.text);
    if (fflush(stdout) == 0 && ferror(stdout) == 0)
        return status;
    fputs("desk: the answers cannot be written\n", stderr);
    return EXIT_USAGE;
}
