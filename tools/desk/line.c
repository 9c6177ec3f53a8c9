#include "line.h"

#include <ctype.h>
#include <stdarg.h>
#include <stdio.h>
#include <stdlib.h>
#include <string.h>

static const struct {
    const char *text;
    enum word word;
} words[] = {
    {"factory", WORD_FACTORY}, {"power-on", WORD_POWER_ON}, {"sample", WORD_SAMPLE}, {"show", WORD_SHOW},
    {"help", WORD_HELP},       {"quit", WORD_QUIT},         {"read", WORD_READ},
};

/* Bytes that only go on a character of UTF-8 are not counted. */
static size_t place_of(struct line line, size_t at) {
    size_t place = 1;
    for (size_t i = 0; i < at; i++)
        place += ((unsigned char)line.text[i] & 0xC0) != 0x80;
    return place;
}

static bool wrong(struct line_fault *fault, struct line line, size_t at, const char *format, ...) {
    va_list values;
    va_start(values, format);
    vsnprintf(fault->words, sizeof fault->words, format, values);
    va_end(values);
    fault->place = place_of(line, at);
    return false;
}

static bool is_blank(char c) { return c == ' ' || c == '\t' || c == '\r' || c == '\n'; }

static bool is_end(struct line line, size_t at) { return at >= line.len || line.text[at] == '#'; }

static size_t skip_blanks(struct line line, size_t at) {
    while (at < line.len && is_blank(line.text[at]))
        at++;
    return at;
}

static size_t word_end(struct line line, size_t at) {
    while (!is_end(line, at) && !is_blank(line.text[at]))
        at++;
    return at;
}

static bool same_word(const char *text, size_t len, const char *word) {
    if (strlen(word) != len)
        return false;
    for (size_t i = 0; i < len; i++) {
        if (tolower((unsigned char)text[i]) != word[i])
            return false;
    }
    return true;
}

bool line_says(struct line line, size_t at, const char *word, size_t *behind) {
    const size_t start = skip_blanks(line, at);
    *behind = word_end(line, start);
    return same_word(line.text + start, *behind - start, word);
}

enum word line_word(struct line line, size_t *behind) {
    for (size_t i = 0; i < sizeof words / sizeof *words; i++) {
        if (line_says(line, 0, words[i].text, behind))
            return words[i].word;
    }
    *behind = 0;
    return WORD_NONE;
}

void line_misplaced(struct line line, struct line_fault *fault) {
    wrong(fault, line, skip_blanks(line, 0), "read is a word for the command line: ./desk read FILE");
}

bool line_ends(struct line line, size_t at, struct line_fault *fault) {
    at = skip_blanks(line, at);
    return is_end(line, at) || wrong(fault, line, at, "nothing more is due on this line");
}

static int digit_of(char c) {
    if (c >= '0' && c <= '9')
        return c - '0';
    if (c >= 'a' && c <= 'f')
        return c - 'a' + 10;
    if (c >= 'A' && c <= 'F')
        return c - 'A' + 10;
    return -1;
}

/* A character that can be no part of a byte. */
static bool no_digit(struct line_fault *fault, struct line line, size_t at) {
    const unsigned char c = (unsigned char)line.text[at];
    if (c == 'O' || c == 'o')
        return wrong(fault, line, at, "%c is a letter, not a zero", c);
    if (c == 'l' || c == 'I')
        return wrong(fault, line, at, "%c is a letter, not a one", c);
    fault->letter = isprint(c) != 0;
    if (fault->letter)
        return wrong(fault, line, at, "%c is no hex digit", c);
    return wrong(fault, line, at, "this character is no hex digit");
}

/* Two digits; what stands behind the first tells what was meant. */
static bool read_byte(struct line line, size_t at, uint8_t *byte, struct line_fault *fault) {
    if (is_end(line, at) || is_blank(line.text[at]) || line.text[at] == ',')
        return wrong(fault, line, at, "two digits are due behind 0x");
    const int high = digit_of(line.text[at]);
    if (high < 0)
        return no_digit(fault, line, at);
    if (is_end(line, at + 1) || is_blank(line.text[at + 1]) || line.text[at + 1] == ',')
        return wrong(fault, line, at, "a byte has two digits; %c stands alone", line.text[at]);
    const int low = digit_of(line.text[at + 1]);
    if (low < 0)
        return no_digit(fault, line, at + 1);
    *byte = (uint8_t)(high << 4 | low);
    return true;
}

static bool is_prefix(struct line line, size_t at) {
    return at + 1 < line.len && line.text[at] == '0' &&
           (line.text[at + 1] == 'x' || line.text[at + 1] == 'X');
}

bool line_bytes(struct line line, uint8_t *bytes, size_t *count, struct line_fault *fault) {
    *count = 0;
    for (size_t at = 0; !is_end(line, at);) {
        if (is_blank(line.text[at]) || line.text[at] == ',') {
            at++;
            continue;
        }
        if (is_prefix(line, at))
            at += 2;
        if (!read_byte(line, at, &bytes[*count], fault))
            return false;
        (*count)++;
        at += 2;
    }
    return true;
}

/* Decimal digits with a sign, point and exponent, or nan or inf: no hex floats. */
static bool read_number(const char *text, size_t len, float *number) {
    char copy[64], *end;
    if (len == 0 || len >= sizeof copy || memchr(text, 'x', len) != NULL || memchr(text, 'X', len) != NULL)
        return false;
    memcpy(copy, text, len);
    copy[len] = '\0';
    *number = strtof(copy, &end);
    return end == copy + len;
}

bool line_numbers(struct line line, size_t at, float *numbers, size_t wanted, struct line_fault *fault) {
    for (size_t i = 0; i < wanted; i++) {
        at = skip_blanks(line, at);
        const size_t end = word_end(line, at);
        if (end == at)
            return wrong(fault, line, at, "%zu numbers are due, and %zu stand here", wanted, i);
        if (memchr(line.text + at, ',', end - at) != NULL)
            return wrong(fault, line, at, "a number has a point, no comma, and blanks stand between numbers");
        if (!read_number(line.text + at, end - at, &numbers[i]))
            return wrong(fault, line, at, "this is no decimal number");
        at = end;
    }
    return line_ends(line, at, fault);
}
