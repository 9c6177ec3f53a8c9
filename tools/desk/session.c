#include "session.h"

#include "fault.h"
#include "keep.h"

#include <errno.h>
#include <stdio.h>
#include <string.h>

static int refused(const char *call, unsigned result, const char *words) {
    fflush(stdout);
    fprintf(stderr, "desk: the %s call is refused with %u: %s\n", call, result, words);
    return EXIT_REFUSED;
}

int session_refused(const char *call, unsigned result) {
    return refused(call, result, result_words(call, result));
}

int session_disagrees(const char *about) {
    fflush(stdout);
    fprintf(stderr, "desk: THE DESK AND THE LIBRARY DISAGREE about %s; the library is right\n", about);
    return EXIT_REFUSED;
}

int session_answer(const struct session *session, const char *call, struct board_answer answer) {
    static const char bad[] = "the record is bad: ";
    char words[sizeof bad + WORDS_MOST], *fault = strcpy(words, bad) + strlen(bad);
    if (answer.result == BOARD_DONE)
        return EXIT_DONE;
    if (answer.result != BOARD_BAD_RECORD)
        return session_refused(call, answer.result);
    if (!fault_words(session->record, sizeof session->record, answer.place, fault))
        return session_disagrees(fault);
    return refused(call, answer.result, words);
}

int session_keep(const struct session *session) {
    if (session->path == NULL || keep_write(session->path, session->record))
        return EXIT_DONE;
    fprintf(stderr, "desk: %s cannot be written: %s\n", session->path, strerror(errno));
    return EXIT_USAGE;
}

/* A call with nothing to do tells whether the record is good. */
static int start_from_file(struct session *session, const uint8_t *bytes, size_t len) {
    uint8_t copy[KEEP_ROOM], output[BOARD_ROOM(BOARD_PENDING_MOST, 0)];
    char words[WORDS_MOST];
    memcpy(copy, bytes, len);
    const struct board_answer answer = board_bytes(copy, len, NULL, 0, output, sizeof output);
    if (answer.result == BOARD_DONE) {
        memcpy(session->record, bytes, sizeof session->record);
        return EXIT_DONE;
    }
    if (answer.result != BOARD_BAD_RECORD)
        return session_refused("bytes", answer.result);
    if (!fault_words(bytes, len, answer.place, words))
        return session_disagrees(words);
    fprintf(stderr, "desk: %s is no record: %s\n", session->path, words);
    return EXIT_REFUSED;
}

static int start_from_factory(struct session *session) {
    const struct board_answer answer = board_factory(session->record, sizeof session->record);
    return answer.result == BOARD_DONE ? session_keep(session) : session_refused("factory", answer.result);
}

int session_start(struct session *session, const char *path, bool hex) {
    uint8_t bytes[KEEP_ROOM];
    size_t len;
    *session = (struct session){.path = path, .teller = {.hex = hex}};
    switch (path == NULL ? KEEP_ABSENT : keep_read(path, bytes, &len)) {
    case KEEP_READ:
        return start_from_file(session, bytes, len);
    case KEEP_ABSENT:
        return start_from_factory(session);
    default:
        fprintf(stderr, "desk: %s cannot be read: %s\n", path, strerror(errno));
        return EXIT_USAGE;
    }
}

static int finish(const struct session *session, const char *call, const char *words) {
    const int kept = session_keep(session);
    if (kept == EXIT_DONE)
        tell_word(&session->teller, call, words);
    return kept;
}

/* Factory reads nothing of the record, so that no field of it is at fault. */
int session_factory(struct session *session) {
    const struct board_answer answer = board_factory(session->record, sizeof session->record);
    return answer.result == BOARD_DONE ? finish(session, "factory", "done: the record is new")
                                       : session_refused("factory", answer.result);
}

int session_power_on(struct session *session) {
    const int status =
        session_answer(session, "power-on", board_power_on(session->record, sizeof session->record));
    if (status != EXIT_DONE)
        return status;
    return finish(session, "power-on", "done: mode closed, locked, no tries used, outputs off, sending on");
}

static void put_float(float value, uint8_t *bytes) {
    uint32_t bits;
    memcpy(&bits, &value, sizeof bits);
    for (int i = 0; i < FLOAT_SIZE; i++)
        bytes[i] = (uint8_t)(bits >> (24 - 8 * i));
}

int session_sample(struct session *session, const float *sample) {
    uint8_t bytes[BOARD_SAMPLE_SIZE], output[BOARD_FRAME_SIZE];
    for (int i = 0; i < CHANNELS; i++)
        put_float(sample[i], bytes + FLOAT_SIZE * i);
    const struct board_answer answer =
        board_samples(session->record, sizeof session->record, bytes, sizeof bytes, output, sizeof output);
    const int status = session_answer(session, "samples", answer);
    if (status != EXIT_DONE)
        return status;
    const int kept = session_keep(session);
    if (kept == EXIT_DONE)
        tell_sample(&session->teller, bytes, output, answer.written);
    return kept;
}

void session_end(const struct session *session) {
    tell_end(&session->teller, session->record + BOARD_AT_PENDING, session->record[BOARD_AT_PENDING_LENGTH]);
}
