/* What is told of a call: frames with their replies, readings, what was skipped and what waits. */
#ifndef TELL_H
#define TELL_H

#include "commands.h"

/* Bytes skipped in a row, and the first head among them whose frame does not end in 85. */
struct skipped {
    size_t bytes, broken;
    uint8_t head;
};

/* How to tell, and what is still to be told. */
struct teller {
    bool hex; /* reply bytes only */
    struct skipped skipped;
    size_t skipped_in_all;
};

/* A word of the desk and what came of it. */
void tell_word(const struct teller *teller, const char *word, const char *words);

void tell_request(const struct teller *teller, const uint8_t *frame, size_t len);

/* Whether it is good news is told by the status. */
void tell_reply(const struct teller *teller, const uint8_t *reply, size_t len, const char *words);

/* The six floats of a reading behind other words. */
void numbers_words(const char *before, const uint8_t *sample, char *words);

/* A reading of six floats, and the measuring frame if there is one. */
void tell_sample(const struct teller *teller, const uint8_t *sample, const uint8_t *frame, size_t len);

/* A row of skipped bytes is told when it ends: at a frame, or at the end of the line. */
void tell_skipped(struct teller *teller);

/* Nothing is told if nothing waits. */
void tell_waiting(const struct teller *teller, const uint8_t *waiting, size_t len);

/* With reply bytes only, the rest is told once, on standard error. */
void tell_end(const struct teller *teller, const uint8_t *waiting, size_t len);

#endif
