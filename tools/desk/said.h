/* Pieces of a capture in words. */
#ifndef SAID_H
#define SAID_H

#include "veil.h"
#include "words.h"

/* Bytes of a capture and their place in it. */
struct stretch {
    const uint8_t *bytes;
    size_t len, place;
};

/* Enough for any frame of the board in words, its data as text among them. */
enum { TEXT_MOST = 4 * LONG_MOST + 3, SAID_WORDS_MOST = 2 * WORDS_MOST + TEXT_MOST };

/* The status of a frame of the board; a long reply has none in its third byte and is done. */
uint8_t said_status(struct stretch frame);

/* A frame of the board; as the answer to a command if one is given, the tables allow it and it hides no code.
 */
void said_words(struct stretch frame, const struct veiled *veiled, const uint8_t *command, char *words);

/* Why a head starts no frame: it does not end in 85, what follows would be in it, the capture ends in it. */
enum why { WHY_BROKEN, WHY_GOES_ON, WHY_ENDS };

/* The head is a command's or the board's; all bytes that may be looked at are given. */
void why_words(struct stretch front, enum why why, char *words);

/* What is due behind an unfinished frame of the board. */
void unread_words(struct stretch unread, char *words);

#endif
