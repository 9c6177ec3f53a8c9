#include "store.h"

#include "memory.h"

#include <string.h>

enum { AT_RECORD = STORE_NUMBER_SIZE, AT_CHECKSUM = AT_RECORD + BOARD_RECORD_SIZE };

/* Each copy has a page of its own, so that erasing one leaves the other. */
_Static_assert(STORE_COPY_SIZE <= MEMORY_PAGE && MEMORY_PAGES == 2, "a copy fits into each of two pages");

static uint32_t number_at(const uint8_t *bytes) {
    return (uint32_t)bytes[0] << 24 | (uint32_t)bytes[1] << 16 | (uint32_t)bytes[2] << 8 | bytes[3];
}

static void put_number(uint8_t *bytes, uint32_t number) {
    for (unsigned i = 0; i < 4; i++)
        bytes[i] = (uint8_t)(number >> (24 - 8 * i));
}

/* CRC-32: memory that is all zero or all FF is no whole copy. */
static uint32_t checksum(const uint8_t *bytes, size_t len) {
    uint32_t sum = 0xFFFFFFFF;
    for (size_t i = 0; i < len; i++) {
        sum ^= bytes[i];
        for (unsigned bit = 0; bit < 8; bit++)
            sum = sum >> 1 ^ (sum & 1 ? 0xEDB88320 : 0);
    }
    return ~sum;
}

/* The number of a copy, 0 if it is not whole. */
static uint32_t read_copy(size_t which, uint8_t *copy) {
    memory_read(which, copy, STORE_COPY_SIZE);
    return checksum(copy, AT_CHECKSUM) == number_at(copy + AT_CHECKSUM) ? number_at(copy) : 0;
}

/* Which copy is the newest whole one; its number is 0 if there is none. */
static size_t newest(uint8_t *copy, uint32_t *number) {
    uint8_t other[STORE_COPY_SIZE];
    const uint32_t first = read_copy(0, copy), second = read_copy(1, other);
    *number = first;
    if (first >= second)
        return 0;
    *number = second;
    memcpy(copy, other, sizeof other);
    return 1;
}

uint32_t store_load(uint8_t *record) {
    uint8_t copy[STORE_COPY_SIZE];
    uint32_t number;
    newest(copy, &number);
    if (number > 0)
        memcpy(record, copy + AT_RECORD, BOARD_RECORD_SIZE);
    return number;
}

/* The number does not come round: 4 billion stores wear out the memory first. */
void store_save(const uint8_t *record) {
    uint8_t copy[STORE_COPY_SIZE];
    uint32_t number;
    const size_t which = newest(copy, &number);
    put_number(copy, number + 1);
    memcpy(copy + AT_RECORD, record, BOARD_RECORD_SIZE);
    put_number(copy + AT_CHECKSUM, checksum(copy, AT_CHECKSUM));
    memory_write(1 - which, copy, sizeof copy);
}
