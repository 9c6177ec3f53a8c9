/* How a stream falls into pieces, by the rules of the board's hunt. */
#ifndef HUNT_H
#define HUNT_H

#include "commands.h"

/* Noise: no frame starts there. Broken: an AA whose frame does not end in 85. Waiting: more bytes are due. */
enum piece_kind { PIECE_NOISE, PIECE_BROKEN, PIECE_FRAME, PIECE_WAITING };

struct piece {
    enum piece_kind kind;
    size_t len;
};

bool is_head(uint8_t byte);

/* The bytes of the frame that a good head announces. */
size_t frame_size(uint8_t head);

/* The first piece of a stream that is not empty. */
struct piece next_piece(const uint8_t *stream, size_t len);

/* The size that the front of a board's frame announces; 0 if it is none, or too short to tell. */
size_t said_size(const uint8_t *front, size_t len);

#endif
