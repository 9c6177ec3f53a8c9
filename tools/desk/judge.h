/* What the tables say of a frame, so that the board's answer can be put into words. */
#ifndef JUDGE_H
#define JUDGE_H

#include "commands.h"

/* The causes of status 62, in the order in which the board looks. */
enum cause { CAUSE_NONE, CAUSE_CLOSED, CAUSE_OPEN, CAUSE_LOCKED, CAUSE_TRIES_USED, CAUSE_WRONG_CODE };

/* The status; of 62 its cause, of 54 and 55 the field and the number that is out of range. */
struct verdict {
    enum status status;
    enum cause cause;
    const struct field *field;
    int64_t number;
};

enum { TRIES_MOST = 3 };

/* The record is the one before the frame. */
struct verdict judge(const uint8_t *record, const uint8_t *frame);

#endif
