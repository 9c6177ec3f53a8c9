/* The board's record in two copies, written in turn, so that a power failure at any time leaves one whole. */
#ifndef STORE_H
#define STORE_H

#include "board.h"

/* A copy is a number that rises with each store, the record, and a checksum over both. */
#define STORE_NUMBER_SIZE 4
#define STORE_CHECKSUM_SIZE 4
#define STORE_COPY_SIZE (STORE_NUMBER_SIZE + BOARD_RECORD_SIZE + STORE_CHECKSUM_SIZE)

/* Loads the newest whole copy and answers its number; 0 if none is whole, and the record is as it was. */
uint32_t store_load(uint8_t *record);

/* Writes the record over the copy that is not the newest whole one. */
void store_save(const uint8_t *record);

#endif
