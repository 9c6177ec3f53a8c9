#include "sessions.h"

#include "both.h"
#include "both_read.h"
#include "frames.h"
#include "lend.h"
#include "record.h"
#include "tally.h"

#include <stdio.h>
#include <string.h>

enum { NUMBERS = BOARD_ENTRY_NUMBERS };

/* Commands are drawn a few at a time, each with noise in front of it or none. */
enum { FRAMES_MOST = 4, NOISE_MOST = 16, BATCH_MOST = FRAMES_MOST * (NOISE_MOST + FRAME_MOST) };

/* The most that one call writes, and the most room that it asks for. */
enum { WRITTEN_MOST = FRAMES_MOST * FRAME_MOST, ROOM_MOST = BOARD_ROOM(PENDING_MOST, BATCH_MOST) };

struct frame {
    size_t from, behind;
};

/* Bytes for a board, of which so many are given, and so many commands carried out. */
struct batch {
    uint8_t bytes[BATCH_MOST];
    struct frame frames[FRAMES_MOST];
    size_t len, given, count, carried_out;
};

/* The other program has the same commands one at a time, so that each has its own reply. */
struct session {
    const struct program *program, *other;
    uint8_t record[RECORD_SIZE], other_record[RECORD_SIZE];
    uint8_t bytes[BOARD_CAPTURE_MOST + ROOM_MOST], data[BOARD_CAPTURE_MOST];
    uint32_t list[BOARD_CAPTURE_MOST];
    size_t len, numbers, noise, skipped;
    struct batch batch;
    bool good;
};

/* To a board a reply or a measuring frame is noise; an AA has a byte behind it that makes it no head. */
static size_t put_noise(struct draw *draw, uint8_t *to) {
    static const uint8_t near[] = {0x00, 0x15, 0x50, 0x5F, 0x6F, 0x85, 0x8F, 0x90, 0xA0, 0xAF, 0xB0, 0xFF};
    static const uint8_t no_heads[] = {0x00, 0x15, 0x50, 0x5F, 0x60, 0x6F, 0x85, 0x8F, 0xB0};
    const size_t most = 1 + draw_below(draw, NOISE_MOST - 1);
    size_t len = 0;
    while (len < most) {
        if (draw_below(draw, 4) == 0) {
            to[len++] = 0xAA;
            to[len++] = draw_one(draw, no_heads, sizeof no_heads);
        } else {
            to[len++] = draw_one(draw, near, sizeof near);
        }
    }
    return len;
}

static void draw_batch(struct draw *draw, struct session *session) {
    struct batch *batch = &session->batch;
    batch->len = batch->given = batch->carried_out = 0;
    batch->count = 1 + draw_below(draw, FRAMES_MOST);
    for (size_t i = 0; i < batch->count; i++) {
        const size_t noise = draw_below(draw, 3) == 0 ? put_noise(draw, batch->bytes + batch->len) : 0;
        const size_t from = batch->len + noise;
        batch->len = from + draw_frame(draw, batch->bytes + from, session->record + AT_CODE);
        batch->frames[i] = (struct frame){from, batch->len};
        session->noise += noise;
    }
}

/* What has to be read next; its data are kept at their place. */
static void tell(struct session *session, size_t head, uint8_t status, const uint8_t *data, size_t count) {
    const size_t place = session->len + 3;
    const uint32_t entry[NUMBERS] = {(uint32_t)head, status, (uint32_t)place, (uint32_t)count};
    memcpy(session->list + session->numbers, entry, sizeof entry);
    memcpy(session->data + place, data, count);
    session->numbers += NUMBERS;
    session->len = place + count + 1;
}

/* Its kind is the command's, its number of data bytes what was written for it alone. */
static void tell_reply(struct session *session, const uint8_t *frame, size_t size) {
    uint8_t reply[BOARD_ROOM(0, FRAME_MOST)];
    const struct request request = {CALL_BYTES, session->other_record, RECORD_SIZE, frame, size,
                                    reply,      BOARD_ROOM(0, size)};
    const size_t written = session->other->run(&request).written;
    if (written < 4 || written > FRAME_MOST) {
        session->good = false;
        return;
    }
    const size_t kind = frame[1] / 16 == AMPLIFIER / 16 ? 0x50 : 0x60;
    tell(session, kind + written - 4, reply[2], reply + 3, written - 4);
}

static void tell_sample(struct session *session, const uint8_t *sample) {
    uint8_t output[BOARD_FRAME_SIZE];
    const bool sending = (session->other_record[AT_FLAGS] & FLAG_SENDING) != 0;
    session->other->run(&(struct request){CALL_SAMPLES, session->other_record, RECORD_SIZE, sample,
                                          BOARD_SAMPLE_SIZE, output, sizeof output});
    if (sending)
        tell(session, 0x15, 0xB0, sample, BOARD_SAMPLE_SIZE);
}

static struct request next_call(struct session *session, enum call call, const uint8_t *input, size_t len,
                                size_t room) {
    uint8_t *output = session->bytes + session->len;
    return (struct request){call, session->record, RECORD_SIZE, input, len, output, room};
}

/* The next bytes of the batch, with just the room that the rule asks for. */
static struct request next_bytes(struct session *session, size_t len) {
    const size_t room = BOARD_ROOM(session->record[AT_PENDING], len);
    return next_call(session, CALL_BYTES, session->batch.bytes + session->batch.given, len, room);
}

static struct request next_sample(struct session *session, const uint8_t *sample) {
    return next_call(session, CALL_SAMPLES, sample, BOARD_SAMPLE_SIZE, BOARD_FRAME_SIZE);
}

/* The commands that end in these bytes are answered; the noise is counted once the batch is given. */
static void give_bytes(struct session *session, size_t len) {
    struct batch *batch = &session->batch;
    const size_t before = session->len;
    const struct request request = next_bytes(session, len);
    const struct board_answer answer = session->program->run(&request);
    batch->given += len;
    session->skipped += answer.skipped;
    for (; batch->carried_out < batch->count; batch->carried_out++) {
        const struct frame *frame = &batch->frames[batch->carried_out];
        if (frame->behind > batch->given)
            break;
        tell_reply(session, batch->bytes + frame->from, frame->behind - frame->from);
    }
    session->good = session->good && answer.result == BOARD_DONE && answer.written == session->len - before &&
                    (batch->given < batch->len || session->skipped == session->noise);
}

static void draw_sample(struct draw *draw, uint8_t *sample) {
    for (size_t at = 0; at < BOARD_SAMPLE_SIZE; at += FLOAT_SIZE)
        draw_finite(draw, sample + at);
}

static void give_sample(struct draw *draw, struct session *session) {
    uint8_t sample[BOARD_SAMPLE_SIZE];
    const size_t before = session->len;
    draw_sample(draw, sample);
    const struct request request = next_sample(session, sample);
    const struct board_answer answer = session->program->run(&request);
    tell_sample(session, sample);
    session->good = session->good && answer.result == BOARD_DONE && answer.written == session->len - before;
}

/* Record and output have to stay as they are, whatever is pending. */
static void refuse(struct session *session, const struct request *request, uint32_t result) {
    uint8_t record[RECORD_SIZE], output[ROOM_MOST];
    memcpy(record, session->record, sizeof record);
    memcpy(output, session->bytes + session->len, sizeof output);
    const struct board_answer answer = session->program->run(request);
    session->good = session->good && answer.result == result && answer.written == 0 && answer.skipped == 0 &&
                    answer.place == 0 && memcmp(record, session->record, sizeof record) == 0 &&
                    memcmp(output, session->bytes + session->len, sizeof output) == 0;
}

/* The bytes are given again by another step. */
static void refuse_bytes(struct draw *draw, struct session *session) {
    struct request request = next_bytes(session, session->batch.len - session->batch.given);
    if (request.output_len == 0)
        return;
    request.output_len = draw_below(draw, (uint32_t)request.output_len);
    refuse(session, &request, BOARD_NO_ROOM);
}

/* Too little room, or one of the values infinite or not a number. */
static void refuse_sample(struct draw *draw, struct session *session) {
    uint8_t sample[BOARD_SAMPLE_SIZE];
    draw_sample(draw, sample);
    struct request request = next_sample(session, sample);
    if (draw_below(draw, 2) == 0) {
        request.output_len = draw_below(draw, BOARD_FRAME_SIZE);
        refuse(session, &request, BOARD_NO_ROOM);
    } else {
        uint8_t *value = sample + draw_below(draw, CHANNELS) * FLOAT_SIZE;
        value[0] |= 0x7F;
        value[1] |= 0x80;
        refuse(session, &request, BOARD_NOT_FINITE);
    }
}

/* Mostly bytes, every second time all that are left, so that others stop within a command or before one. */
static void one_step(struct draw *draw, struct session *session) {
    const struct batch *batch = &session->batch;
    if (batch->given == batch->len)
        draw_batch(draw, session);
    const size_t left = batch->len - batch->given;
    switch (draw_below(draw, 8)) {
    case 0:
        give_sample(draw, session);
        break;
    case 1:
        refuse_sample(draw, session);
        break;
    case 2:
        refuse_bytes(draw, session);
        break;
    default:
        give_bytes(session, draw_below(draw, 2) == 0 ? left : draw_below(draw, (uint32_t)left + 1));
        break;
    }
}

static const struct session *current;

static void show_session(void) {
    printf("differs: a session with %s, behind %zu bytes\n", current->program->name, current->len);
}

static void expect(bool good, const char *what) {
    if (tally_case(good)) {
        show_session();
        printf("  %s\n", what);
        tally_printed();
    }
}

static bool is_listed(const struct session *session, const struct left *left) {
    const struct board_reading wanted = {BOARD_DONE, (uint32_t)(session->numbers / NUMBERS), 0, 0};
    return left->good && same_reading(left->answer, wanted) &&
           memcmp(left->list, session->list, session->numbers * sizeof *session->list) == 0;
}

static bool has_data(const struct session *session) {
    for (const uint32_t *entry = session->list; entry < session->list + session->numbers; entry += NUMBERS) {
        const size_t place = entry[BOARD_ENTRY_PLACE];
        if (memcmp(session->bytes + place, session->data + place, entry[BOARD_ENTRY_COUNT]) != 0)
            return false;
    }
    return true;
}

/* Steps until another one might not fit into the capture. */
static void one_session(struct draw *draw, struct session *session, const uint8_t *start) {
    memcpy(session->record, start, RECORD_SIZE);
    memcpy(session->other_record, start, RECORD_SIZE);
    memset(session->bytes, FILLING, sizeof session->bytes);
    current = session;
    both_show = show_session;
    while (session->good && session->len + WRITTEN_MOST <= BOARD_CAPTURE_MOST)
        one_step(draw, session);
    expect(session->good, "a call answers not as its commands do one at a time");
    const struct left left = both_capture(session->bytes, session->len, draw_below(draw, NUMBERS));
    expect(is_listed(session, &left), "other entries than what was meant");
    expect(has_data(session), "other data than what was meant");
}

/* Both programs hold the same session; a full name and a full model make replies of 15 bytes. */
void every_session(struct draw *draw) {
    enum { SESSIONS = 300 };
    static const uint8_t text[] = "fifteen letters";
    static struct session session;
    uint8_t start[RECORD_SIZE];
    for (unsigned i = 0; i < SESSIONS; i++) {
        draw_record(draw, start, 0, i % 2 == 0);
        if (i % 4 != 0) {
            field_set(start, field_named("name"), text, TEXT_MOST);
            field_set(start, field_named("model"), text, TEXT_MOST);
        }
        const struct draw before = *draw;
        for (size_t k = 0; k < PROGRAMS; k++) {
            *draw = before;
            session =
                (struct session){.program = &programs[k], .other = &programs[PROGRAMS - 1 - k], .good = true};
            one_session(draw, &session, start);
        }
    }
}
