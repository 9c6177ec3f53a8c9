/*
 * Workloads to be counted, and the stack of each call.
 *   workloads list                             each workload's name, and whether it grows with its size
 *   workloads count PROGRAM WORKLOAD SIZE N    makes its call N times; PROGRAM is proved, second or none
 *   workloads stack                            the most bytes of stack of each call, proved and second
 */
#define _XOPEN_SOURCE 700 /* for contexts with a stack of their own */

#include "frames.h"
#include "none.h"
#include "programs.h"
#include "record.h"

#include <stdio.h>
#include <stdlib.h>
#include <string.h>
#include <ucontext.h>

DEFINE_CALLS(none)

static const struct program none = {"none", run_none, read_none};

/* What the call is given; each call starts from the same record. */
static uint8_t start[RECORD_SIZE], record[RECORD_SIZE], input[BOARD_INPUT_MOST], output[BOARD_ROOM_MOST];
static struct request request = {CALL_BYTES, record, RECORD_SIZE, input, 0, output, sizeof output};

/* The reader is given the same input, as a capture. */
static bool reads;
static uint32_t entries[BOARD_ENTRY_NUMBERS * BOARD_ENTRIES(sizeof input)];

static void make_call(const struct program *program) {
    if (reads)
        program->read(input, request.input_len, entries, sizeof entries / sizeof *entries);
    else
        program->run(&request);
}

/* Fills the input with the bytes over and over. */
static void repeat(const uint8_t *bytes, size_t len, size_t size) {
    for (size_t i = 0; i < size; i++)
        input[i] = bytes[i % len];
    request.input_len = size;
}

static void noise(size_t size) {
    struct draw draw = draw_from(1);
    draw_bytes(&draw, input, size);
    request.input_len = size;
}

static void short_commands(size_t size) {
    static const uint8_t bytes[] = {0xAA, 0x90, 0x23, 0x85, 0xAA, 0x90, 0x24, 0x85,
                                    0xAA, 0x90, 0x1A, 0x85, 0xAA, 0x90, 0x51, 0x85};
    repeat(bytes, sizeof bytes, size);
}

/* What a fitter does: stop, open, set and read, a slip or two, close, unlock, model and filters, start. */
static void session(size_t size) {
    static const struct {
        uint8_t kind, number, count, parameters[PARAMETERS_MOST];
    } steps[] = {
        {AMPLIFIER, 0x23, 0, {0}},
        {BT121, 0xE0, 0, {0}},
        {BT121, 0xE2, 0, {0}},
        {BT121, 0xE3, 2, {0xFF, 0xEC}},
        {BT121, 0xE3, 2, {0x00, 0x0D}},
        {BT121, 0xE2, 1, {0x0C}},
        {BT121, 0xE5, 1, {3}},
        {BT121, 0xE7, 1, {1}},
        {BT121, 0xE9, 15, "fifteen letters"},
        {BT121, 0xE8, 0, {0}},
        {BT121, 0xEE, 1, {2}},
        {BT121, 0xED, 0, {0}},
        {BT121, 0xEB, 2, {4, 1}},
        {BT121, 0xF0, 1, {4}},
        {BT121, 0xF1, 2, {3, 1}},
        {BT121, 0xF2, 1, {59}},
        {BT121, 0xF3, 0, {0}},
        {BT121, 0xE1, 0, {0}},
        {AMPLIFIER, 0x19, 4, "USC1"},
        {AMPLIFIER, 0x1C, 4, "K6D"},
        {AMPLIFIER, 0x1B, 0, {0}},
        {AMPLIFIER, 0x52, 4, {0, 0, 0, 0x3F}},
        {AMPLIFIER, 0x53, 1, {1}},
        {AMPLIFIER, 0x24, 0, {0}},
    };
    uint8_t bytes[sizeof steps / sizeof *steps * FRAME_MOST];
    size_t len = 0;
    for (size_t i = 0; i < sizeof steps / sizeof *steps; i++)
        len += put_frame(bytes + len, steps[i].kind, steps[i].number, steps[i].parameters, steps[i].count);
    repeat(bytes, len, size);
}

static void all_aa(size_t size) {
    static const uint8_t bytes[] = {0xAA};
    repeat(bytes, sizeof bytes, size);
}

/* A longest head at every second byte, and never an 85. */
static void wrong_last_byte(size_t size) {
    static const uint8_t bytes[] = {0xAA, 0x9F};
    repeat(bytes, sizeof bytes, size);
}

static void empty_input(size_t size) {
    (void)size;
    request.input_len = 0;
}

/* The same with six pairs to be looked at, and else the factory's record. */
static void empty_read(size_t size) {
    struct draw draw = draw_from(2);
    uint8_t drawn[RECORD_SIZE];
    draw_record(&draw, drawn, 0, true);
    memcpy(start + AT_PAIRS, drawn + AT_PAIRS, RECORD_SIZE - AT_PAIRS);
    start[AT_FLAGS] = FLAG_READING | FLAG_SENDING;
    empty_input(size);
}

/* Refused for the last field, so that all are looked at: the sixth pair's smallest value is no number. */
static void bad_last_pair(size_t size) {
    empty_read(size);
    start[RECORD_SIZE - FLOAT_SIZE] = 0x7F;
    start[RECORD_SIZE - FLOAT_SIZE + 1] = 0xC0;
    request.call = CALL_POWER_ON;
}

static void short_frame(size_t size) {
    (void)size;
    short_commands(4);
}

/* A reading that is not the first, with sending on. */
static void reading_sent(size_t size) {
    struct draw draw = draw_from(2);
    (void)size;
    draw_record(&draw, start, 0, true);
    start[AT_FLAGS] = FLAG_READING | FLAG_SENDING;
    for (size_t at = 0; at < BOARD_SAMPLE_SIZE; at += FLOAT_SIZE)
        draw_finite(&draw, input + at);
    request.call = CALL_SAMPLES;
    request.input_len = BOARD_SAMPLE_SIZE;
}

/* The last channel is no number, so that all are looked at. */
static void reading_refused(size_t size) {
    reading_sent(size);
    input[BOARD_SAMPLE_SIZE - FLOAT_SIZE] = 0x7F;
    input[BOARD_SAMPLE_SIZE - FLOAT_SIZE + 1] = 0xC0;
}

/* What a session answers, and a reply of 64 bytes. */
static void read_replies(size_t size) {
    static const struct {
        uint8_t head, status, count;
    } replies[] = {{0x50, 0x00, 0}, {0x62, 0x00, 2},  {0x60, 0x54, 0},  {0x61, 0x00, 1},    {0x54, 0x00, 4},
                   {0x59, 0x00, 9}, {0x6B, 0x00, 11}, {0x6F, 0x00, 15}, {0x5F, 64 - 15, 64}};
    uint8_t bytes[256] = {0};
    size_t len = 0;
    for (size_t i = 0; i < sizeof replies / sizeof *replies; i++) {
        bytes[len] = 0xAA;
        bytes[len + 1] = replies[i].head;
        bytes[len + 2] = replies[i].status;
        bytes[len + 3 + replies[i].count] = 0x85;
        len += 4u + replies[i].count;
    }
    repeat(bytes, len, size);
    reads = true;
}

static void read_noise(size_t size) {
    noise(size);
    reads = true;
}

/* The head of a long reply of 189 bytes at every second byte, and never an 85; the last one waits. */
static void read_torn(size_t size) {
    static const uint8_t bytes[] = {0xAA, 0x5F};
    repeat(bytes, sizeof bytes, size);
    reads = true;
}

static void read_measuring(size_t size) {
    static const uint8_t bytes[BOARD_FRAME_SIZE] = {0xAA, 0x15, 0xB0, [BOARD_FRAME_SIZE - 1] = 0x85};
    repeat(bytes, sizeof bytes, size);
    reads = true;
}

static const struct workload {
    const char *name;
    void (*prepare)(size_t size);
    bool grows;
} workloads[] = {
    {"noise", noise, true},
    {"short-commands", short_commands, true},
    {"session", session, true},
    {"all-AA", all_aa, true},
    {"wrong-last-byte", wrong_last_byte, true},
    {"empty-input", empty_input, false},
    {"empty-read", empty_read, false},
    {"bad-last-pair", bad_last_pair, false},
    {"short-frame", short_frame, false},
    {"reading-sent", reading_sent, false},
    {"reading-refused", reading_refused, false},
    {"read-replies", read_replies, true},
    {"read-noise", read_noise, true},
    {"read-torn", read_torn, true},
    {"read-measuring", read_measuring, true},
};

enum { WORKLOADS = sizeof workloads / sizeof *workloads };

static void prepare(const struct workload *workload, size_t size) {
    memcpy(start, factory_record, RECORD_SIZE);
    request.call = CALL_BYTES;
    reads = false;
    workload->prepare(size);
}

static int list(void) {
    for (size_t i = 0; i < WORKLOADS; i++)
        printf("%s %s\n", workloads[i].name, workloads[i].grows ? "grows" : "fixed");
    return 0;
}

static const struct program *program_named(const char *name) {
    size_t i = 0;
    while (i < PROGRAMS && strcmp(programs[i].name, name) != 0)
        i++;
    return i < PROGRAMS ? &programs[i] : &none;
}

static int count(const struct program *program, const char *name, size_t size, unsigned long times) {
    size_t at = 0;
    while (at < WORKLOADS && strcmp(workloads[at].name, name) != 0)
        at++;
    if (at == WORKLOADS || size > sizeof input)
        return 2;
    prepare(&workloads[at], size);
    for (unsigned long i = 0; i < times; i++) {
        memcpy(record, start, RECORD_SIZE);
        make_call(program);
    }
    return 0;
}

enum { STACK = 65536, PAINT = 0xB7 };

static const struct program *painted;

static void call_painted(void) { make_call(painted); }

/* How far down one call writes on a stack of its own. */
static size_t stack_of_call(const struct program *program) {
    static uint8_t stack[STACK];
    static ucontext_t here, there;
    size_t untouched = 0;
    memset(stack, PAINT, sizeof stack);
    memcpy(record, start, RECORD_SIZE);
    painted = program;
    getcontext(&there);
    there.uc_stack.ss_sp = stack;
    there.uc_stack.ss_size = sizeof stack;
    there.uc_link = &here;
    makecontext(&there, call_painted, 0);
    swapcontext(&here, &there);
    while (untouched < sizeof stack && stack[untouched] == PAINT)
        untouched++;
    /* A word of 8 bytes is used even if its lowest bytes happen to look like paint. */
    return sizeof stack - untouched / 8 * 8;
}

/* Of the calls over a record, and of the reader behind them. */
static size_t worst[CALLS + 1][PROGRAMS];

static void paint(void) {
    const size_t calling = stack_of_call(&none);
    for (size_t i = 0; i < PROGRAMS; i++) {
        const size_t depth = stack_of_call(&programs[i]) - calling;
        size_t *most = &worst[reads ? CALLS : request.call][i];
        if (depth > *most)
            *most = depth;
    }
}

/* One frame whole in the input, then with all but its last byte pending. */
static void paint_frame(const uint8_t *frame, size_t len) {
    repeat(frame, len, len);
    paint();
    field_set(start, field_named("pending"), frame, len - 1);
    repeat(frame + len - 1, 1, 1);
    paint();
}

/* Every command by itself, closed and open, with the board unlocked. */
static void paint_commands(void) {
    static const uint8_t parameters[PARAMETERS_MOST] = {2, 1};
    for (size_t i = 0; i < 2 * COMMANDS; i++) {
        const struct command *command = &commands[i / 2];
        uint8_t frame[FRAME_MOST];
        memcpy(start, factory_record, RECORD_SIZE);
        start[AT_FLAGS] |= (uint8_t)(FLAG_UNLOCKED | (i % 2 == 0 ? 0 : FLAG_OPEN));
        request.call = CALL_BYTES;
        paint_frame(frame, put_frame(frame, command->kind, command->number, parameters, command->most));
    }
}

static int stack(void) {
    for (size_t i = 0; i < WORKLOADS; i++) {
        prepare(&workloads[i], sizeof input);
        paint();
        reads = false;
        for (int call = 0; call < CALLS; call++) {
            request.call = (enum call)call;
            paint();
        }
    }
    paint_commands();
    for (size_t i = 0; i <= CALLS; i++)
        printf("%s %zu %zu\n", i < CALLS ? call_names[i] : "read", worst[i][PROVED], worst[i][SECOND]);
    return 0;
}

int main(int argc, char **argv) {
    if (argc == 2 && strcmp(argv[1], "list") == 0)
        return list();
    if (argc == 2 && strcmp(argv[1], "stack") == 0)
        return stack();
    if (argc == 6 && strcmp(argv[1], "count") == 0)
        return count(program_named(argv[2]), argv[3], strtoul(argv[4], NULL, 10), strtoul(argv[5], NULL, 10));
    fprintf(stderr, "usage: workloads list | stack | count PROGRAM WORKLOAD SIZE N\n");
    return 2;
}
