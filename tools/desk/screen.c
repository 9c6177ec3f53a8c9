#define _POSIX_C_SOURCE 200809L
#include "screen.h"

#include <stdio.h>
#include <stdlib.h>
#include <string.h>
#include <unistd.h>

enum { COLUMN = 28 };

static bool colour;

static const char *const colours[] = {"", "\033[32m", "\033[31m", "\033[33m"};

void screen_start(void) {
    const char *refused = getenv("NO_COLOR"), *terminal = getenv("TERM");
    colour = isatty(STDOUT_FILENO) == 1 && (refused == NULL || *refused == '\0') &&
             (terminal == NULL || strcmp(terminal, "dumb") != 0);
}

void screen_line(const char *words, enum tone tone) {
    if (colour && tone != TONE_PLAIN)
        printf("%s%s\033[0m\n", colours[tone], words);
    else
        printf("%s\n", words);
}

void screen_row(const char *left, const char *words, enum tone tone) {
    if (strlen(left) + 2 > COLUMN)
        printf("%s\n%*s", left, COLUMN, "");
    else
        printf("%-*s", COLUMN, left);
    screen_line(words, tone);
}
