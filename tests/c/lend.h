/* Buffers lent to a program, each between guard bytes. */
#ifndef LEND_H
#define LEND_H

#include "programs.h"

enum { GUARD = 32, FILLING = 0xC3, TURNS = 4 };

/* Guards that differ, so that reading beyond a buffer shows too: bytes of frames, no number, zero. */
extern const uint8_t guards[TURNS][PROGRAMS];

/* Puts the bytes between guards and answers where they stand. Without bytes there is the filling. */
uint8_t *lend(uint8_t *buffer, const uint8_t *bytes, size_t len, uint8_t guard);

bool guarded(const uint8_t *buffer, size_t len, uint8_t guard);

#endif
