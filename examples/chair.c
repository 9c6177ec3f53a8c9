/* A chair's main program in small: first start, each start, running, storing. It prints what happens. */
#include "board.h"
#include "memory.h"
#include "store.h"

#include <stdbool.h>
#include <stdio.h>
#include <stdlib.h>
#include <string.h>

/* The serial line hands over what has arrived, here at most 6 bytes at once. */
enum { CUT = 6 };

static const uint8_t printed_code[BOARD_CODE_SIZE] = {0x55, 0x53, 0x43, 0x31};
static const uint8_t own_code[BOARD_CODE_SIZE] = {0x3A, 0x91, 0x00, 0xC7};

static void show(const char *what, const uint8_t *bytes, size_t len) {
    printf("%s", what);
    for (size_t i = 0; i < len; i++)
        printf(" %02X", bytes[i]);
    printf("\n");
}

static void show_state(const uint8_t *record) {
    printf("power %d, outputs", BOARD_POWER(record));
    for (int k = 1; k <= 4; k++)
        printf(" %d", BOARD_OUTPUT(record, k));
    printf(", %d pending\n", record[BOARD_AT_PENDING_LENGTH]);
}

/* A refusal means a fault in this program or a spoilt record, so the chair must not go on. */
static struct board_answer done(const char *call, struct board_answer answer) {
    static const char *const names[] = {[BOARD_DONE] = "done",
                                        [BOARD_BAD_RECORD] = "bad record",
                                        [BOARD_BAD_LENGTH] = "bad length",
                                        [BOARD_NO_ROOM] = "no room",
                                        [BOARD_NOT_FINITE] = "not finite"};
    if (answer.result != BOARD_DONE) {
        printf("%s refused: %s", call, names[answer.result]);
        if (answer.result == BOARD_BAD_RECORD)
            printf(", the field at %u", (unsigned)answer.place);
        printf("\n");
        exit(1);
    }
    return answer;
}

static void check_archive(void) {
    uint8_t fresh[BOARD_RECORD_SIZE] = {[BOARD_AT_VERSION] = BOARD_RECORD_VERSION};
    if (board_factory(fresh, sizeof fresh).result != BOARD_DONE ||
        fresh[BOARD_AT_VERSION] != BOARD_RECORD_VERSION) {
        printf("the archive is not that of board.h " BOARD_VERSION "\n");
        exit(1);
    }
}

/* What power-on keeps has to outlive a power failure. Only a change is stored, since memory wears. */
static void keep(const uint8_t *record) {
    uint8_t kept[BOARD_RECORD_SIZE], stored[BOARD_RECORD_SIZE];
    memcpy(kept, record, sizeof kept);
    done("power-on", board_power_on(kept, sizeof kept));
    if (store_load(stored) > 0 && memcmp(kept, stored, sizeof kept) == 0)
        return;
    printf("storing\n");
    store_save(kept);
}

/* Where the chair is made: the practice's code takes the place of the printed one. */
static void first_start(void) {
    uint8_t record[BOARD_RECORD_SIZE];
    done("factory", board_factory(record, sizeof record));
    show("factory", record, sizeof record);
    memcpy(record + BOARD_AT_CODE, own_code, sizeof own_code);
    keep(record);
}

/* Without a whole copy there is no start: a new record would have the printed code. */
static bool start(uint8_t *record) {
    const uint32_t number = store_load(record);
    if (number == 0) {
        printf("no whole copy, no start\n");
        return false;
    }
    printf("start from store %u\n", (unsigned)number);
    done("power-on", board_power_on(record, BOARD_RECORD_SIZE));
    show_state(record);
    return true;
}

/* Stored before sent, so that nothing confirmed is lost. */
static void receive(uint8_t *record, const uint8_t *bytes, size_t len) {
    uint8_t output[BOARD_ROOM(BOARD_PENDING_MOST, CUT)];
    for (size_t at = 0; at < len; at += CUT) {
        const size_t cut = len - at < CUT ? len - at : CUT;
        show("received", bytes + at, cut);
        const struct board_answer answer =
            done("bytes", board_bytes(record, BOARD_RECORD_SIZE, bytes + at, cut, output, sizeof output));
        keep(record);
        if (answer.written > 0)
            show("sent", output, answer.written);
        if (answer.skipped > 0)
            printf("skipped %u\n", (unsigned)answer.skipped);
    }
}

/* A value that is no number is a fault of the sensor: that reading is left out, and the chair goes on. */
static void measure(uint8_t *record, const uint8_t *sample) {
    uint8_t output[BOARD_FRAME_SIZE];
    show("measured", sample, BOARD_SAMPLE_SIZE);
    const struct board_answer answer =
        board_samples(record, BOARD_RECORD_SIZE, sample, BOARD_SAMPLE_SIZE, output, sizeof output);
    if (answer.result == BOARD_NOT_FINITE) {
        printf("left out\n");
        return;
    }
    if (done("samples", answer).written > 0)
        show("sent", output, answer.written);
}

static void unlock(uint8_t *record, const uint8_t *code) {
    uint8_t frame[] = {0xAA, 0x94, 0x19, 0, 0, 0, 0, 0x85};
    memcpy(frame + 3, code, BOARD_CODE_SIZE);
    receive(record, frame, sizeof frame);
}

static void run(uint8_t *record) {
    /* A byte of noise, stop sending, open, power -20, output 3 on, close, and half of a frame. */
    static const uint8_t fitter[] = {0x00, 0xAA, 0x90, 0x23, 0x85, 0xAA, 0xA0, 0xE0, 0x85,
                                     0xAA, 0xA2, 0xE3, 0xFF, 0xEC, 0x85, 0xAA, 0xA2, 0xF1,
                                     0x03, 0x01, 0x85, 0xAA, 0xA0, 0xE1, 0x85, 0xAA, 0x90};
    /* The other half starts sending; then the greatest and smallest value of channel 2 are read. */
    static const uint8_t rest[] = {0x24, 0x85, 0xAA, 0x91, 0x53, 0x02, 0x85};
    /* 1, 2, -3, 0, -0 and 0.5, then 1, -2, -3, 0, -0 and 0.5, then channel 1 is infinite */
    static const uint8_t readings[][BOARD_SAMPLE_SIZE] = {
        {0x3F, 0x80, 0, 0, 0x40, 0, 0, 0, 0xC0, 0x40, 0, 0, 0, 0, 0, 0, 0x80, 0, 0, 0, 0x3F, 0, 0, 0},
        {0x3F, 0x80, 0, 0, 0xC0, 0, 0, 0, 0xC0, 0x40, 0, 0, 0, 0, 0, 0, 0x80, 0, 0, 0, 0x3F, 0, 0, 0},
        {0x7F, 0x80, 0, 0, 0xC2, 0, 0, 0, 0xC0, 0x40, 0, 0, 0, 0, 0, 0, 0x80, 0, 0, 0, 0x3F, 0, 0, 0},
    };
    receive(record, fitter, sizeof fitter);
    show_state(record);
    measure(record, readings[0]);
    receive(record, rest, sizeof rest);
    measure(record, readings[1]);
    measure(record, readings[2]);
    receive(record, rest + 2, sizeof rest - 2);
    unlock(record, printed_code);
    unlock(record, own_code);
}

/* The power fails inside a store: the chair goes dark before it replies. */
static void fail_in_store(uint8_t *record) {
    static const uint8_t power_5[] = {0xAA, 0xA0, 0xE0, 0x85, 0xAA, 0xA2, 0xE3, 0x00, 0x05, 0x85};
    uint8_t output[BOARD_ROOM(BOARD_PENDING_MOST, sizeof power_5)];
    show("received", power_5, sizeof power_5);
    done("bytes", board_bytes(record, BOARD_RECORD_SIZE, power_5, sizeof power_5, output, sizeof output));
    memory_fail_after(STORE_COPY_SIZE / 2);
    keep(record);
    printf("power failure\n");
    memory_restore();
    start(record);
    receive(record, power_5, sizeof power_5);
    start(record);
}

/* The newer copy is spoilt, then the other too. */
static void spoil(uint8_t *record) {
    static const uint8_t spoilt[STORE_NUMBER_SIZE] = {0xFF, 0xFF, 0xFF, 0xFF};
    for (size_t page = MEMORY_PAGES; page-- > 0;) {
        memory_write(page, spoilt, sizeof spoilt);
        start(record);
    }
}

int main(void) {
    uint8_t record[BOARD_RECORD_SIZE];
    check_archive();
    first_start();
    if (!start(record))
        return 1;
    run(record);
    fail_in_store(record);
    spoil(record);
    return 0;
}
