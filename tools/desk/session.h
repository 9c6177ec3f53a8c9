/* A board at the desk: its record, and the calls with what they answer in words. */
#ifndef SESSION_H
#define SESSION_H

#include "board.h"
#include "tell.h"

/* How the program ends. */
enum { EXIT_DONE = 0, EXIT_REFUSED = 1, EXIT_USAGE = 2 };

struct session {
    uint8_t record[BOARD_RECORD_SIZE];
    const char *path; /* NULL, or where the record is kept */
    struct teller teller;
};

/* These return how the program would end. The start is from the file, or from factory if there is none. */
int session_start(struct session *session, const char *path, bool hex);
int session_factory(struct session *session);
int session_power_on(struct session *session);
int session_sample(struct session *session, const float *sample);

/* The bytes of one line, however many; stream.c. */
int session_bytes(struct session *session, const uint8_t *bytes, size_t len);

void session_end(const struct session *session);

/* A board call was refused. */
int session_refused(const char *call, unsigned result);

/* What a call over the session's record came to; of a bad record its faulty field is told. */
int session_answer(const struct session *session, const char *call, struct board_answer answer);

/* The desk's hunt and tables are there for words; where the library says other things, no word is sure. */
int session_disagrees(const char *about);

/* Keeps the record before its changes are told, so that what was told is kept. */
int session_keep(const struct session *session);

#endif
