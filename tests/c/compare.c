/* Gives the proved library and the second program the same calls and compares all that they leave. */
#include "both.h"
#include "both_read.h"
#include "hex.h"
#include "parts.h"
#include "tally.h"

#include <stdio.h>
#include <stdlib.h>
#include <string.h>

static const struct part {
    const char *name;
    void (*run)(const struct settings *settings);
    unsigned long least;
} parts[] = {
    {"tables", run_tables, 242},        {"commands", run_commands, 1193744},
    {"limits", run_limits, 11718},      {"changes", run_changes, 2645034},
    {"faults", run_faults, 144578},     {"hunts", run_hunts, 23562},
    {"readings", run_readings, 725868}, {"streams", run_streams, 200000},
    {"captures", run_captures, 814014},
};

static int usage(void) {
    printf("usage: compare [--first] [--seed N] [--calls N] [--part NAME] TABLE...\n"
           "       compare --replay CALL RECORD INPUT ROOM MODE\n"
           "       compare --replay read CAPTURE NUMBERS\n"
           "RECORD, INPUT and CAPTURE are hex, - if empty, null if a null pointer; ROOM and NUMBERS are\n"
           "a number, - or null; MODE is that of the floats, usual or flushed\n");
    return 2;
}

static bool read_number(const char *text, unsigned long *number) {
    char *end;
    *number = strtoul(text, &end, 0);
    return *text != '\0' && *end == '\0';
}

/* Reads a buffer of a replay line; an empty one may say that its pointer was null. */
static bool read_buffer(const char *word, uint8_t *bytes, size_t room, size_t *len, bool *null) {
    *len = 0;
    if (strcmp(word, "null") == 0)
        *null = true;
    else if (strcmp(word, "-") != 0)
        return hex_read(word, bytes, room, len);
    return true;
}

/* Output and list have a length only, but may be a null pointer too. */
static bool read_room(const char *word, size_t most, size_t *room, bool *null) {
    unsigned long number;
    uint8_t none;
    if (!read_number(word, &number))
        return read_buffer(word, &none, 0, room, null);
    *room = number;
    return number <= most;
}

static int replay(char **words) {
    static uint8_t record[RECORD_ROOM], input[INPUT_ROOM];
    struct given given = {.record = record, .input = input};
    if (!call_named(words[0], &given.call) ||
        !read_buffer(words[1], record, sizeof record, &given.record_len, &given.null) ||
        !read_buffer(words[2], input, sizeof input, &given.input_len, &given.null) ||
        !read_room(words[3], OUTPUT_ROOM, &given.room, &given.null) || !mode_named(words[4], &both_mode))
        return usage();
    const struct board_answer answer = both(&given);
    printf("second program: result %u, written %u, skipped %u, place %u\n", (unsigned)answer.result,
           (unsigned)answer.written, (unsigned)answer.skipped, (unsigned)answer.place);
    return tally_end();
}

static int replay_read(char **words) {
    static uint8_t capture[CAPTURE_ROOM];
    struct captured given = {.capture = capture};
    if (strcmp(words[0], "read") != 0 ||
        !read_buffer(words[1], capture, sizeof capture, &given.capture_len, &given.null) ||
        !read_room(words[2], LIST_ROOM, &given.list_len, &given.null))
        return usage();
    const struct board_reading answer = both_read(&given).answer;
    printf("second program: result %u, entries %u, skipped %u, unread %u\n", (unsigned)answer.result,
           (unsigned)answer.entries, (unsigned)answer.skipped, (unsigned)answer.unread);
    return tally_end();
}

/* Fewer cases than the part promises are a failure. */
static void run_part(const struct part *part, const struct settings *settings) {
    const unsigned long before = tally.passed + tally.failed;
    part->run(settings);
    const unsigned long cases = tally.passed + tally.failed - before;
    printf("%s: %lu cases\n", part->name, cases);
    if (cases < part->least && tally_case(false))
        printf("%s: fewer cases than the %lu stated\n", part->name, part->least);
}

/* False if there is no such option or its value is none. */
static bool read_option(struct settings *settings, const char *option, const char *value) {
    if (strcmp(option, "--seed") == 0)
        return read_number(value, &settings->seed);
    if (strcmp(option, "--calls") == 0)
        return read_number(value, &settings->calls);
    settings->part = value;
    return strcmp(option, "--part") == 0;
}

/* At least one part has to have the name that is asked for. */
static bool run_parts(const struct settings *settings) {
    bool any = false;
    for (size_t i = 0; i < sizeof parts / sizeof *parts; i++) {
        if (settings->part == NULL || strcmp(settings->part, parts[i].name) == 0) {
            run_part(&parts[i], settings);
            any = true;
        }
    }
    return any;
}

int main(int argc, char **argv) {
    struct settings settings = {.seed = 121, .calls = 500000};
    int at = 1;
    both_catch_crashes();
    if (argc == 7 && strcmp(argv[1], "--replay") == 0)
        return replay(argv + 2);
    if (argc == 5 && strcmp(argv[1], "--replay") == 0)
        return replay_read(argv + 2);
    tally.first = argc > at && strcmp(argv[at], "--first") == 0;
    at += tally.first ? 1 : 0;
    for (; at + 1 < argc && argv[at][0] == '-'; at += 2) {
        if (!read_option(&settings, argv[at], argv[at + 1]))
            return usage();
    }
    if (at == argc)
        return usage();
    settings.tables = argc - at;
    settings.table = argv + at;
    printf("seed %lu\n", settings.seed);
    return run_parts(&settings) ? tally_end() : usage();
}
