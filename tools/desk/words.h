/* Frames and replies in words. */
#ifndef WORDS_H
#define WORDS_H

#include "judge.h"

/* Enough for any of these. */
enum { WORDS_MOST = 400 };

/* What a whole frame asks. */
void request_words(const uint8_t *frame, char *words);

/* What its reply means; the records are those before and after the frame. */
void reply_words(const uint8_t *before, const uint8_t *after, const uint8_t *frame, const uint8_t *reply,
                 char *words);

/* Whether the parameters of a number are a code, so that nobody reads them. */
bool takes_code(unsigned kind, uint8_t number);

/* A frame's bytes; those of a code are dots. */
void frame_hex(const uint8_t *frame, size_t len, char *hex);

/* Bytes with spaces between; three characters of room for each. */
void hex_words(const uint8_t *bytes, size_t len, char *hex);

/* The result of a refused call; one of them has a list where the others have an output. A bad record is that
 * of factory; where another one is bad, fault.h tells. */
const char *result_words(const char *call, unsigned result);

#endif
