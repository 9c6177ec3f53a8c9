/* One case given to both programs, and all that they leave compared. */
#ifndef BOTH_H
#define BOTH_H

#include "mode.h"
#include "programs.h"

#include <stdbool.h>

/* The largest buffers that a case may lend: lengths of more than 16 bits too. */
enum { RECORD_ROOM = 66000, INPUT_ROOM = 66000, OUTPUT_ROOM = 66000 };

/* What a call is given; the output is lent with a fixed filling. An empty buffer may be lent as null. */
struct given {
    enum call call;
    uint8_t *record;
    size_t record_len;
    const uint8_t *input;
    size_t input_len;
    size_t room;
    bool null;
};

/* From then on a program that crashes ends with its case printed. */
void both_catch_crashes(void);

/* Prints the case under way. */
extern void (*both_show)(void);

/* The float mode in which programs are run. */
extern enum mode both_mode;

/* Counts the case and prints it if the two differ. The record becomes what the second program left. */
struct board_answer both(const struct given *given);

/* The bytes call with just the room that the rule asks for. */
struct board_answer both_bytes(uint8_t *record, const uint8_t *input, size_t len);

/* The bytes call on one whole frame. */
struct board_answer both_frame(uint8_t *record, uint8_t kind, uint8_t number, const uint8_t *parameters,
                               size_t count);

struct board_answer both_samples(uint8_t *record, const uint8_t *sample);

struct board_answer both_power_on(uint8_t *record);

#endif
