/* Replies in words where the record is not known. */
#ifndef ANSWER_H
#define ANSWER_H

#include "words.h"

/* What a reply says by itself. */
void status_words(uint8_t status, char *words);

/* What a reply means as the answer to a frame; false if the tables give the frame no such reply. */
bool answer_words(const uint8_t *frame, const uint8_t *reply, size_t size, char *words);

#endif
