/* A record in words. */
#ifndef SHOW_H
#define SHOW_H

#include <stdbool.h>
#include <stddef.h>
#include <stdint.h>

/* The code only if it is asked for. */
void show_record(const uint8_t *record, bool code);

/* "5 bytes wait for 9 more", for bytes that the hunt leaves waiting. */
void waiting_words(const uint8_t *waiting, size_t len, char *words);

#endif
