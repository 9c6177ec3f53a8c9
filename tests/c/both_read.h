/* One capture given to both readers, and all that they leave compared. */
#ifndef BOTH_READ_H
#define BOTH_READ_H

#include "programs.h"

/* The largest buffers that a case may lend: lengths of more than 16 bits too. */
enum { CAPTURE_ROOM = 70000, LIST_ROOM = 70000 };

/* What the reader is given; the list is lent with a fixed filling. An empty buffer may be lent as null. */
struct captured {
    const uint8_t *capture;
    size_t capture_len, list_len;
    bool null;
};

/* What the second program left, and whether the case passed; the list stays until the next case. */
struct left {
    bool good;
    struct board_reading answer;
    const uint32_t *list;
};

bool same_reading(struct board_reading a, struct board_reading b);

/* Prints an answer and as many of its entries as the list has room for. */
void show_reading(const char *whose, struct board_reading answer, const uint32_t *list, size_t list_len);

/* Counts the case and prints it if the two differ, or tell of frames that are not there. */
struct left both_read(const struct captured *given);

/* The same with the list that the rule asks for and so many numbers over. */
struct left both_capture(const uint8_t *capture, size_t len, size_t over);

#endif
