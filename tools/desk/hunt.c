#include "hunt.h"

#include "board.h"

#include <string.h>

bool is_head(uint8_t byte) { return KIND_OF(byte) == AMPLIFIER || KIND_OF(byte) == BT121; }

size_t frame_size(uint8_t head) { return FRAME_AROUND + COUNT_OF(head); }

struct piece next_piece(const uint8_t *stream, size_t len) {
    const uint8_t *start = memchr(stream, FRAME_START, len);
    const size_t before = start == NULL ? len : (size_t)(start - stream);
    if (before > 0)
        return (struct piece){PIECE_NOISE, before};
    if (len == 1)
        return (struct piece){PIECE_WAITING, len};
    if (!is_head(stream[AT_HEAD]))
        return (struct piece){PIECE_NOISE, 1};
    const size_t size = frame_size(stream[AT_HEAD]);
    if (len < size)
        return (struct piece){PIECE_WAITING, len};
    if (stream[size - 1] != FRAME_END)
        return (struct piece){PIECE_BROKEN, 1};
    return (struct piece){PIECE_FRAME, size};
}

size_t said_size(const uint8_t *front, size_t len) {
    if (len <= AT_HEAD || front[0] != FRAME_START)
        return 0;
    const bool reply = kind_answered(front[AT_HEAD]) != 0;
    if (reply && COUNT_OF(front[AT_HEAD]) < LONG_FEWEST)
        return frame_size(front[AT_HEAD]);
    if (len <= AT_STATUS)
        return 0;
    if (reply)
        return frame_size(front[AT_HEAD]) + front[AT_STATUS];
    return front[AT_HEAD] == MEASURING && front[AT_STATUS] == STATUS_MEASURING ? BOARD_FRAME_SIZE : 0;
}
