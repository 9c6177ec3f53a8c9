/* What a line says: bytes in hex, or a word with what belongs to it. */
#ifndef LINE_H
#define LINE_H

#include <stdbool.h>
#include <stddef.h>
#include <stdint.h>

struct line {
    const char *text;
    size_t len;
};

/* The first fault of a line: its place, counted from 1 in characters, and what is wrong. */
struct line_fault {
    size_t place;
    char words[120];
    bool letter; /* a letter or sign that may have been meant as a word */
};

enum word { WORD_NONE, WORD_FACTORY, WORD_POWER_ON, WORD_SAMPLE, WORD_SHOW, WORD_HELP, WORD_QUIT, WORD_READ };

/* The word that a line starts with; *behind is where it ends. */
enum word line_word(struct line line, size_t *behind);

/* The fault of a line that starts with a word for the command line. */
void line_misplaced(struct line line, struct line_fault *fault);

/* Whether only blanks or a remark stand from a place on. */
bool line_ends(struct line line, size_t at, struct line_fault *fault);

/* Whether one given word stands from a place on; *behind is where it ends. */
bool line_says(struct line line, size_t at, const char *word, size_t *behind);

/* The bytes of a line; there is room for half as many as characters. */
bool line_bytes(struct line line, uint8_t *bytes, size_t *count, struct line_fault *fault);

/* So many decimal numbers from a place on. */
bool line_numbers(struct line line, size_t at, float *numbers, size_t wanted, struct line_fault *fault);

#endif
