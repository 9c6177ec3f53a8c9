/* Bytes go to the library in calls; the desk hunts the same stream, so that it can speak of each frame. */
#include "hunt.h"
#include "session.h"
#include "words.h"

#include <string.h>

enum { STREAM_MOST = BOARD_PENDING_MOST + BOARD_INPUT_MOST };

/* One call: its stream and output, how far the words have come, and the record as each frame finds it. */
struct talk {
    uint8_t stream[STREAM_MOST], output[BOARD_ROOM_MOST];
    size_t stream_len, written, spoken, skipped, waiting;
    uint8_t record[BOARD_RECORD_SIZE]; /* a copy with nothing pending */
};

static void skip(struct teller *teller, const uint8_t *stream, struct piece piece) {
    if (piece.kind == PIECE_BROKEN && teller->skipped.broken++ == 0)
        teller->skipped.head = stream[AT_HEAD];
    teller->skipped.bytes += piece.len;
}

/* Whether the reply to a frame alone is what the call wrote at this place. */
static bool is_next(const struct talk *talk, const uint8_t *reply, struct board_answer answer) {
    return answer.result == BOARD_DONE && answer.written >= FRAME_AROUND &&
           answer.written <= talk->written - talk->spoken &&
           memcmp(talk->output + talk->spoken, reply, answer.written) == 0;
}

/* The frame alone, on the copy: that shows the record before and after it. */
static int speak_frame(struct teller *teller, struct talk *talk, const uint8_t *frame, size_t len) {
    uint8_t before[BOARD_RECORD_SIZE], reply[BOARD_ROOM(0, FRAME_MOST)];
    char words[WORDS_MOST] = "";
    memcpy(before, talk->record, sizeof before);
    const struct board_answer answer =
        board_bytes(talk->record, sizeof talk->record, frame, len, reply, sizeof reply);
    tell_skipped(teller);
    tell_request(teller, frame, len);
    if (!is_next(talk, reply, answer))
        return session_disagrees("where a frame stands");
    talk->spoken += answer.written;
    const bool agreed = judge(before, frame).status == reply[AT_STATUS];
    if (agreed)
        reply_words(before, talk->record, frame, reply, words);
    tell_reply(teller, reply, answer.written, words);
    return agreed ? EXIT_DONE : session_disagrees("the status of this reply");
}

static int speak(struct teller *teller, struct talk *talk) {
    struct piece piece;
    for (size_t at = 0; at < talk->stream_len; at += piece.len) {
        const uint8_t *rest = talk->stream + at;
        int status = EXIT_DONE;
        piece = next_piece(rest, talk->stream_len - at);
        if (piece.kind == PIECE_FRAME)
            status = speak_frame(teller, talk, rest, piece.len);
        else if (piece.kind == PIECE_WAITING)
            talk->waiting = piece.len;
        else {
            skip(teller, rest, piece);
            talk->skipped += piece.len;
        }
        if (status != EXIT_DONE)
            return status;
    }
    return EXIT_DONE;
}

/* The copy has gone through the same frames, so with the bytes that wait it is the record. */
static int compare(const struct session *session, struct talk *talk, struct board_answer answer) {
    talk->record[BOARD_AT_PENDING_LENGTH] = (uint8_t)talk->waiting;
    memcpy(talk->record + BOARD_AT_PENDING, talk->stream + talk->stream_len - talk->waiting, talk->waiting);
    if (talk->spoken != answer.written)
        return session_disagrees("the number of replies");
    if (talk->skipped != answer.skipped)
        return session_disagrees("the bytes skipped");
    if (memcmp(talk->record, session->record, BOARD_RECORD_SIZE) != 0)
        return session_disagrees("the record");
    return EXIT_DONE;
}

static void start_talk(const struct session *session, const uint8_t *bytes, size_t len, struct talk *talk) {
    const size_t pending = session->record[BOARD_AT_PENDING_LENGTH];
    memcpy(talk->stream, session->record + BOARD_AT_PENDING, pending);
    memcpy(talk->stream + pending, bytes, len);
    talk->stream_len = pending + len;
    talk->spoken = talk->skipped = talk->waiting = 0;
    memcpy(talk->record, session->record, BOARD_RECORD_SIZE);
    memset(talk->record + BOARD_AT_PENDING_LENGTH, 0, 1 + BOARD_PENDING_SIZE);
}

static int one_call(struct session *session, const uint8_t *bytes, size_t len) {
    static struct talk talk;
    start_talk(session, bytes, len, &talk);
    const struct board_answer answer =
        board_bytes(session->record, BOARD_RECORD_SIZE, bytes, len, talk.output, sizeof talk.output);
    const int done = session_answer(session, "bytes", answer);
    if (done != EXIT_DONE)
        return done;
    talk.written = answer.written;
    const int kept = session_keep(session);
    if (kept != EXIT_DONE)
        return kept;
    const int spoken = speak(&session->teller, &talk);
    return spoken != EXIT_DONE ? spoken : compare(session, &talk, answer);
}

int session_bytes(struct session *session, const uint8_t *bytes, size_t len) {
    for (size_t at = 0; at < len; at += BOARD_INPUT_MOST) {
        const size_t cut = len - at < BOARD_INPUT_MOST ? len - at : BOARD_INPUT_MOST;
        const int status = one_call(session, bytes + at, cut);
        if (status != EXIT_DONE)
            return status;
    }
    tell_skipped(&session->teller);
    if (len > 0)
        tell_waiting(&session->teller, session->record + BOARD_AT_PENDING,
                     session->record[BOARD_AT_PENDING_LENGTH]);
    return EXIT_DONE;
}
