/* What is told of a capture: frames of the board, commands, what else was skipped, and what is unread. */
#ifndef REPORT_H
#define REPORT_H

#include "said.h"
#include "veil.h"

enum { SHOWN_MOST = 16 };

/* Bytes skipped in a row: the first of them in hex, and the first head among them. */
struct lost {
    size_t bytes, place, heads;
    char hex[3 * SHOWN_MOST + 1], words[WORDS_MOST];
};

/* How to tell, and what is still to be told. */
struct report {
    bool hex; /* bytes of the board's frames only */
    struct lost lost;
    struct veil veil;            /* over the bytes skipped */
    size_t unanswered;           /* commands since the last reply */
    uint8_t command[FRAME_MOST]; /* the last of them */
    size_t frames, skipped, in_commands;
};

/* A frame of the board. Behind one single command a reply is told as its answer. */
void report_frame(struct report *report, struct stretch frame);

/* A frame of the fitter, which the library skips as it does noise. */
void report_command(struct report *report, struct stretch frame);

/* Bytes that are no whole frame of either; a row of them is told when it ends. */
void report_skip(struct report *report, struct stretch bytes);
void report_skipped(struct report *report);

/* A head that the next skipped byte starts. */
void report_head(struct report *report, struct stretch front, enum why why);

/* Nothing is told if nothing is unread. Bytes that are held in front of it are told later. */
void report_unread(const struct report *report, struct stretch held, struct stretch unread);

/* The sum of all; with the bytes of frames only, on standard error. */
void report_end(const struct report *report, struct stretch unread);

#endif
