/* What is wrong in a field of a record. That a record is bad, and in which field, the library decides. */
#ifndef FAULT_H
#define FAULT_H

#include "words.h"

/*
 * The field at the place that a call returned for a bad record: its name, what stands there and what is due,
 * in words of at most WORDS_MOST. False if the desk sees no fault there; the words then tell the place.
 */
bool fault_words(const uint8_t *record, size_t len, uint32_t place, char *words);

#endif
