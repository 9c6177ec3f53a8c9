/*
 * Makes the stored streams of bench: hex text to bytes, bytes to what bench has to write, replies to hex
 * text. The replies come from the second program, never from bench itself.
 */
#include "board.h"
#include "hex.h"
#include "second.h"

#include <stdio.h>
#include <string.h>

enum { LINE_MOST = 1000 };

static int put(const uint8_t *bytes, size_t len) {
    return fwrite(bytes, 1, len, stdout) == len && fflush(stdout) == 0 ? 0 : 1;
}

/* Lines of hex; from # on a line is a remark. */
static int make_bytes(void) {
    char line[LINE_MOST];
    uint8_t bytes[LINE_MOST / 2];
    size_t len;
    while (fgets(line, sizeof line, stdin) != NULL) {
        line[strcspn(line, "#")] = '\0';
        if (!hex_read(line, bytes, sizeof bytes, &len) || put(bytes, len) != 0)
            return 1;
    }
    return ferror(stdin);
}

/* What bench does, with the calls of the second program. */
static int make_replies(void) {
    static uint8_t input[BOARD_INPUT_MOST], output[BOARD_ROOM_MOST];
    uint8_t record[BOARD_RECORD_SIZE];
    size_t len;
    second_factory(record, sizeof record);
    while ((len = fread(input, 1, sizeof input, stdin)) > 0) {
        const struct second_answer answer =
            second_bytes(record, sizeof record, input, len, output, sizeof output);
        if (answer.result != BOARD_DONE || put(output, answer.written) != 0)
            return 1;
    }
    return ferror(stdin);
}

/* One reply on each line: the low half of its second byte tells how many bytes of data it has. */
static int make_lines(void) {
    uint8_t reply[19];
    size_t len;
    while ((len = fread(reply, 1, 4, stdin)) > 0) {
        if (len == 4)
            len += fread(reply + 4, 1, reply[1] & 0x0F, stdin);
        hex_print(reply, len, " ");
        printf("\n");
    }
    return ferror(stdin);
}

int main(int argc, char **argv) {
    static const struct {
        const char *name;
        int (*make)(void);
    } makers[] = {{"bytes", make_bytes}, {"replies", make_replies}, {"lines", make_lines}};
    for (size_t i = 0; argc == 2 && i < sizeof makers / sizeof *makers; i++) {
        if (strcmp(argv[1], makers[i].name) == 0)
            return makers[i].make();
    }
    fprintf(stderr, "usage: make bytes|replies|lines <from >to\n");
    return 2;
}
