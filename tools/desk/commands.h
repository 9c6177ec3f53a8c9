/* The command tables of the board, a row for each number that is known under its head. */
#ifndef COMMANDS_H
#define COMMANDS_H

#include "fields.h"

/* A frame: AA, a head whose low half counts the parameters, a number, the parameters, 85. */
enum {
    FRAME_START = 0xAA,
    FRAME_END = 0x85,
    AT_HEAD = 1,
    AT_NUMBER = 2,
    AT_PARAMETERS = 3,
    AT_STATUS = 2,
    AT_DATA = 3,
    FRAME_AROUND = 4,
    PARAMETERS_MOST = 15,
    FRAME_MOST = FRAME_AROUND + PARAMETERS_MOST
};

/* The high half of a head. */
enum kind { AMPLIFIER = 0x90, BT121 = 0xA0 };

/* What a board says: a reply of one of two kinds, or a measuring frame with a status of its own. */
enum said { AMPLIFIER_REPLY = 0x50, BT121_REPLY = 0x60, MEASURING = 0x15, STATUS_MEASURING = 0xB0 };

/* A reply whose head says 15 is long: its third byte adds to the length. */
enum { LONG_FEWEST = PARAMETERS_MOST, LONG_MOST = LONG_FEWEST + 0xFF, SAID_MOST = FRAME_AROUND + LONG_MOST };

#define KIND_OF(head) ((head)&0xF0)
#define COUNT_OF(head) ((size_t)((head)&0x0F))

/* Statuses of a reply. */
enum status {
    STATUS_DONE = 0x00,
    STATUS_UNKNOWN = 0x40,
    STATUS_NOT_BUILT = 0x41,
    STATUS_WRONG_COUNT = 0x5B,
    STATUS_NO_ACCESS = 0x62,
    STATUS_TOO_BIG = 0x54,
    STATUS_TOO_SMALL = 0x55
};

/* What the board must be like for a command to be carried out. */
enum access { NOT_BUILT, ALWAYS, OPEN, CLOSED, CLOSED_UNLOCKED, CLOSED_TRIES_LEFT };

enum { FIELDS_MOST = 3 };

struct command {
    enum kind kind;
    uint8_t number;
    const char *source; /* its name in the source documents */
    enum access access;
    const char *title;   /* what it asks, in words */
    const char *details; /* the same with its parameters: each # is the next one */
    const struct field *parameters[FIELDS_MOST], *data[FIELDS_MOST];
};

extern const struct command commands[];
extern const size_t commands_count;

/* NULL if the number is not known under this kind of head. */
const struct command *command_named(unsigned kind, uint8_t number);

/* The fewest and the most bytes of a command's parameters or data. */
size_t fields_fewest(const struct field *const *fields);
size_t fields_most(const struct field *const *fields);

/* A status, what it says and when the board gives it. */
struct status_row {
    enum status status;
    const char *says, *when;
};

/* In the order in which the board looks; done stands last. */
extern const struct status_row statuses[];
extern const size_t statuses_count;

const char *kind_words(unsigned kind);

/* The kind of the commands to which a reply with this head answers; 0 if it is no reply's head. */
unsigned kind_answered(uint8_t head);

#endif
