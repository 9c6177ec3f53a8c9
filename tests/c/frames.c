#include "frames.h"

#include "record.h"

#include <string.h>

size_t put_frame(uint8_t *to, uint8_t kind, uint8_t number, const uint8_t *parameters, size_t count) {
    to[0] = 0xAA;
    to[1] = (uint8_t)(kind | count);
    to[2] = number;
    if (count > 0)
        memcpy(to + 3, parameters, count);
    to[3 + count] = 0x85;
    return 4 + count;
}

const struct command commands[COMMANDS] = {
    {BT121, 0xE0, 0, 0},     {BT121, 0xE1, 0, 0},      {BT121, 0xE2, 0, 0},     {BT121, 0xE3, 2, 2},
    {BT121, 0xE4, 0, 0},     {BT121, 0xE5, 1, 1},      {BT121, 0xE6, 0, 0},     {BT121, 0xE7, 1, 1},
    {BT121, 0xE8, 0, 0},     {BT121, 0xE9, 0, 15},     {BT121, 0xEA, 0, 0},     {BT121, 0xEB, 2, 2},
    {BT121, 0xEC, 0, 1},     {BT121, 0xED, 0, 0},      {BT121, 0xEE, 1, 1},     {BT121, 0xEF, 0, 0},
    {BT121, 0xF0, 1, 1},     {BT121, 0xF1, 2, 2},      {BT121, 0xF2, 1, 1},     {BT121, 0xF3, 0, 0},
    {AMPLIFIER, 0x17, 0, 2}, {AMPLIFIER, 0x18, 0, 6},  {AMPLIFIER, 0x19, 4, 4}, {AMPLIFIER, 0x1A, 0, 0},
    {AMPLIFIER, 0x1B, 0, 0}, {AMPLIFIER, 0x1C, 1, 15}, {AMPLIFIER, 0x23, 0, 0}, {AMPLIFIER, 0x24, 0, 0},
    {AMPLIFIER, 0x50, 0, 6}, {AMPLIFIER, 0x51, 0, 0},  {AMPLIFIER, 0x52, 4, 4}, {AMPLIFIER, 0x53, 1, 1},
    {AMPLIFIER, 0x54, 0, 0}, {AMPLIFIER, 0x55, 0, 1},
};

/* Mostly bytes at the ends of ranges, and bytes that mean something to the hunt. */
static uint8_t draw_parameter(struct draw *draw) {
    static const uint8_t edges[] = {0x00, 0x01, 0x02, 0x03, 0x04, 0x05, 0x06, 0x07, 0x0C, 0x0D, 0x3B,
                                    0x3C, 0x3F, 0x40, 0x7F, 0x80, 0x85, 0x90, 0xAA, 0xEB, 0xEC, 0xFF};
    return draw_below(draw, 4) == 0 ? draw_byte(draw) : draw_one(draw, edges, sizeof edges);
}

size_t draw_frame(struct draw *draw, uint8_t *to, const uint8_t *code) {
    const struct command *command = &commands[draw_below(draw, COMMANDS)];
    const size_t count = command->least + draw_below(draw, command->most - command->least + 1u);
    uint8_t parameters[PARAMETERS_MOST];
    for (size_t i = 0; i < count; i++)
        parameters[i] = draw_parameter(draw);
    /* Small numbers make more pairs of two bytes that are in range. */
    if (count == 2 && draw_below(draw, 2) == 0)
        parameters[0] = (uint8_t)draw_below(draw, 7);
    if (command->number == 0x19 && draw_below(draw, 2) == 0)
        memcpy(parameters, code, CODE_SIZE);
    return put_frame(to, command->kind, command->number, parameters, count);
}
