/* Frames, and the commands that document 01 lists. */
#ifndef FRAMES_H
#define FRAMES_H

#include "draw.h"

enum { AMPLIFIER = 0x90, BT121 = 0xA0, PARAMETERS_MOST = 15, FRAME_MOST = 19 };

/* Writes one frame and answers its size. */
size_t put_frame(uint8_t *to, uint8_t kind, uint8_t number, const uint8_t *parameters, size_t count);

struct command {
    uint8_t kind, number, least, most;
};

/* Those known but not built too. */
enum { COMMANDS = 34 };

extern const struct command commands[COMMANDS];

/* A frame of one of them with as many parameters as it takes; 19 has the code in every second one. */
size_t draw_frame(struct draw *draw, uint8_t *to, const uint8_t *code);

#endif
