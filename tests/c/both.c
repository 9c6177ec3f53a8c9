#include "both.h"

#include "frames.h"
#include "hex.h"
#include "lend.h"
#include "record.h"
#include "tally.h"

#include <signal.h>
#include <stdio.h>
#include <stdlib.h>
#include <string.h>

/* A program's own copy of what is lent, each buffer between guard bytes. */
struct lent {
    uint8_t guard, record_guard;
    uint8_t record[GUARD + RECORD_ROOM + GUARD];
    uint8_t input[GUARD + INPUT_ROOM + GUARD];
    uint8_t output[GUARD + OUTPUT_ROOM + GUARD];
    struct board_answer answer;
};

static struct lent lents[PROGRAMS];

static const struct given *current;

void (*both_show)(void);

enum mode both_mode = MODE_USUAL;

static void run(const struct program *program, const struct given *given, struct lent *lent) {
    struct request request = {
        .call = given->call,
        .record = lend(lent->record, given->record, given->record_len, lent->record_guard),
        .record_len = given->record_len,
        .input = lend(lent->input, given->input, given->input_len, lent->guard),
        .input_len = given->input_len,
        .output = lend(lent->output, NULL, given->room, lent->guard),
        .output_len = given->room,
    };
    if (given->null && given->record_len == 0)
        request.record = NULL;
    if (given->null && given->input_len == 0)
        request.input = NULL;
    if (given->null && given->room == 0)
        request.output = NULL;
    const unsigned before = mode_enter(both_mode);
    lent->answer = program->run(&request);
    mode_leave(before);
}

static bool all_guarded(const struct lent *lent, const struct given *given) {
    return guarded(lent->record, given->record_len, lent->record_guard) &&
           guarded(lent->input, given->input_len, lent->guard) &&
           guarded(lent->output, given->room, lent->guard);
}

static bool input_kept(const struct lent *lent, const struct given *given) {
    return given->input_len == 0 || memcmp(lent->input + GUARD, given->input, given->input_len) == 0;
}

static bool same_answer(struct board_answer a, struct board_answer b) {
    return a.result == b.result && a.written == b.written && a.skipped == b.skipped && a.place == b.place;
}

/* A refusal has zero counts; only a record of the right length can be bad behind place 0. */
static bool fits(struct board_answer answer, const struct given *given) {
    if (answer.result != BOARD_DONE && (answer.written != 0 || answer.skipped != 0))
        return false;
    if (answer.result != BOARD_BAD_RECORD || given->call == CALL_FACTORY || given->record_len != RECORD_SIZE)
        return answer.place == 0;
    return is_place(answer.place);
}

/* Output behind the written bytes has the filling; false too if the written bytes do not fit. */
static bool rest_kept(const struct lent *lent, const struct given *given) {
    const size_t written = lent->answer.written;
    if (written >= given->room)
        return written == given->room;
    const uint8_t *rest = lent->output + GUARD + written;
    return rest[0] == FILLING && memcmp(rest, rest + 1, given->room - written - 1) == 0;
}

/* After a refusal the record is as given. */
static bool record_kept(const struct lent *lent, const struct given *given) {
    return lent->answer.result == BOARD_DONE || given->record_len == 0 ||
           memcmp(lent->record + GUARD, given->record, given->record_len) == 0;
}

/* What holds for every call, whatever the other program does. */
static bool is_good(const struct lent *lent, const struct given *given) {
    return all_guarded(lent, given) && input_kept(lent, given) && fits(lent->answer, given) &&
           rest_kept(lent, given) && record_kept(lent, given);
}

static bool same_bytes(const uint8_t *a, const uint8_t *b, size_t len) {
    return memcmp(a + GUARD, b + GUARD, len) == 0;
}

static void show_word(const uint8_t *bytes, size_t len, bool null) {
    printf(" ");
    if (len == 0)
        printf("%s", null ? "null" : "-");
    else
        hex_print(bytes, len, "");
}

static void show_case(const struct given *given) {
    printf("differs: --replay %s", call_names[given->call]);
    show_word(given->record, given->record_len, given->null);
    show_word(given->input, given->input_len, given->null);
    if (given->room == 0)
        show_word(NULL, 0, given->null);
    else
        printf(" %zu", given->room);
    printf(" %s\n", mode_names[both_mode]);
}

static void show_current(void) { show_case(current); }

static void crashed(int number) {
    printf("signal %d\n", number);
    if (both_show != NULL)
        both_show();
    printf("%lu passed, %lu failed\n", tally.passed, tally.failed + 1);
    fflush(stdout);
    _Exit(1);
}

void both_catch_crashes(void) {
    static const int numbers[] = {SIGSEGV, SIGILL, SIGFPE, SIGABRT};
    for (size_t i = 0; i < sizeof numbers / sizeof *numbers; i++)
        signal(numbers[i], crashed);
}

static void show_left(const struct program *program, const struct lent *lent, const struct given *given) {
    printf("  %s: result %u, written %u, skipped %u, place %u, guards %s, input %s\n    record",
           program->name, (unsigned)lent->answer.result, (unsigned)lent->answer.written,
           (unsigned)lent->answer.skipped, (unsigned)lent->answer.place,
           all_guarded(lent, given) ? "kept" : "broken", input_kept(lent, given) ? "kept" : "changed");
    show_word(lent->record + GUARD, given->record_len, false);
    printf("\n    output");
    show_word(lent->output + GUARD, given->room, false);
    printf("\n");
}

struct board_answer both(const struct given *given) {
    static unsigned turn;
    bool good = true;
    turn = (turn + 1) % TURNS;
    current = given;
    both_show = show_current;
    for (unsigned i = 0; i < PROGRAMS; i++) {
        lents[i].guard = guards[turn][i];
        /* Not the same, so that copying from guard to guard shows. */
        lents[i].record_guard = guards[(turn + 1) % TURNS][i];
        run(&programs[i], given, &lents[i]);
        good = good && is_good(&lents[i], given);
    }
    const struct lent *proved = &lents[PROVED], *second = &lents[SECOND];
    good = good && same_answer(proved->answer, second->answer) &&
           same_bytes(proved->record, second->record, given->record_len) &&
           same_bytes(proved->output, second->output, given->room);
    if (tally_case(good)) {
        show_case(given);
        for (unsigned i = 0; i < PROGRAMS; i++)
            show_left(&programs[i], &lents[i], given);
        tally_printed();
    }
    if (given->record_len > 0)
        memcpy(given->record, second->record + GUARD, given->record_len);
    return second->answer;
}

struct board_answer both_bytes(uint8_t *record, const uint8_t *input, size_t len) {
    const size_t room = BOARD_ROOM(record[AT_PENDING], len);
    return both(&(struct given){CALL_BYTES, record, RECORD_SIZE, input, len, room, false});
}

struct board_answer both_samples(uint8_t *record, const uint8_t *sample) {
    return both(&(struct given){CALL_SAMPLES, record, RECORD_SIZE, sample, BOARD_SAMPLE_SIZE,
                                BOARD_FRAME_SIZE, false});
}

struct board_answer both_power_on(uint8_t *record) {
    return both(&(struct given){CALL_POWER_ON, record, RECORD_SIZE, NULL, 0, 0, false});
}

struct board_answer both_frame(uint8_t *record, uint8_t kind, uint8_t number, const uint8_t *parameters,
                               size_t count) {
    uint8_t frame[FRAME_MOST];
    return both_bytes(record, frame, put_frame(frame, kind, number, parameters, count));
}
