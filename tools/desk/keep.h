/* The file that a record is kept in. */
#ifndef KEEP_H
#define KEEP_H

#include "board.h"

#include <stdbool.h>

enum { KEEP_ROOM = BOARD_RECORD_SIZE + 1 };

enum keep { KEEP_READ, KEEP_ABSENT, KEEP_FAILED };

/* Reads at most KEEP_ROOM bytes, so that a file that is too long shows; errno tells why it failed. */
enum keep keep_read(const char *path, uint8_t *bytes, size_t *len);

/* A new file beside the old one, on the disk before it takes the old one's name; errno tells why not. */
bool keep_write(const char *path, const uint8_t *record);

#endif
