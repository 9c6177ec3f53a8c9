/* Rows of two columns, bytes and words, with colour on a terminal. */
#ifndef SCREEN_H
#define SCREEN_H

#include <stdbool.h>
#include <stddef.h>
#include <stdint.h>

enum tone { TONE_PLAIN, TONE_GOOD, TONE_BAD, TONE_NOTE };

/* Colour only if standard output is a terminal and NO_COLOR is not set. */
void screen_start(void);

/* What stands left and is too long for its column gets a line of its own. */
void screen_row(const char *left, const char *words, enum tone tone);

/* A line of words. */
void screen_line(const char *words, enum tone tone);

#endif
