/* Tables of calls with what the documents expect of them, run on each program by itself. */
#include "both_read.h"
#include "hex.h"
#include "parts.h"
#include "record.h"
#include "tally.h"

#include <stdio.h>
#include <stdlib.h>
#include <string.h>

enum { LINE_MOST = 2000, BYTES_MOST = 600, NUMBERS = BOARD_ENTRY_NUMBERS };

/* The columns of a row, in order. */
enum { START, CALL, INPUT, OUTPUT, SKIPPED, CHANGES, PLACE, COLUMNS };

/* A row with a record: what is given and what has to come out. */
struct row {
    bool from_factory;
    enum call call;
    uint8_t input[BYTES_MOST], output[BYTES_MOST];
    size_t input_len, output_len;
    uint32_t skipped;
    char *changes;
};

/* A row of the reader: a capture and what has to be read from it. */
struct capture_row {
    uint8_t capture[BYTES_MOST];
    uint32_t list[BYTES_MOST];
    size_t capture_len;
    struct board_reading answer;
};

/* Where the row stands, for what is printed. */
struct place {
    const char *file;
    unsigned long line;
};

static void stop(struct place place, const char *what) {
    printf("%s:%lu: %s\n", place.file, place.line, what);
    exit(2);
}

static char *trimmed(char *text) {
    text += strspn(text, " ");
    char *end = text + strlen(text);
    while (end > text && (end[-1] == ' ' || end[-1] == '\n'))
        end--;
    *end = '\0';
    return strcmp(text, "-") == 0 ? end : text;
}

static void split(struct place place, char *line, char **columns) {
    for (int i = 0; i < COLUMNS; i++) {
        char *bar = strchr(line, '|');
        if ((bar == NULL) != (i == COLUMNS - 1))
            stop(place, "not seven columns");
        if (bar != NULL)
            *bar = '\0';
        columns[i] = trimmed(line);
        line = bar == NULL ? line : bar + 1;
    }
    if (*columns[PLACE] == '\0')
        stop(place, "no place in a document");
}

static size_t hex_column(struct place place, const char *text, uint8_t *bytes, size_t room) {
    size_t len;
    if (!hex_read(text, bytes, room, &len))
        stop(place, "not hex");
    return len;
}

static uint32_t number_column(struct place place, const char *text, const char *what) {
    char *end;
    const unsigned long number = strtoul(text, &end, 10);
    if (end == text || *end != '\0')
        stop(place, what);
    return (uint32_t)number;
}

static void read_row(struct place place, char **columns, struct row *row) {
    row->from_factory = strcmp(columns[START], "factory") == 0;
    if (!row->from_factory && strcmp(columns[START], "then") != 0)
        stop(place, "starts neither from factory nor then");
    if (!call_named(columns[CALL], &row->call))
        stop(place, "no such call");
    row->input_len = hex_column(place, columns[INPUT], row->input, BYTES_MOST);
    row->output_len = hex_column(place, columns[OUTPUT], row->output, BYTES_MOST);
    row->skipped = number_column(place, columns[SKIPPED], "no number of bytes skipped");
    row->changes = columns[CHANGES];
}

/* Entries are head and status in hex, place and count as numbers, with commas between them. */
static uint32_t list_column(struct place place, const char *text, uint32_t *list) {
    size_t numbers = 0;
    while (*text != '\0' && numbers < BYTES_MOST) {
        char *end;
        list[numbers] = (uint32_t)strtoul(text, &end, numbers % NUMBERS < BOARD_ENTRY_PLACE ? 16 : 10);
        if (end == text)
            stop(place, "no entries");
        numbers++;
        text = end + (numbers % NUMBERS == 0 && *end == ',' ? 1 : 0);
    }
    if (*text != '\0' || numbers % NUMBERS != 0)
        stop(place, "not whole entries, or too many");
    return (uint32_t)(numbers / NUMBERS);
}

static void read_capture_row(struct place place, char **columns, struct capture_row *row) {
    if (strcmp(columns[START], "none") != 0)
        stop(place, "the reader starts from none");
    row->capture_len = hex_column(place, columns[INPUT], row->capture, BYTES_MOST);
    row->answer.result = BOARD_DONE;
    row->answer.entries = list_column(place, columns[OUTPUT], row->list);
    row->answer.skipped = number_column(place, columns[SKIPPED], "no number of bytes skipped");
    if (strncmp(columns[CHANGES], "unread=", 7) != 0)
        stop(place, "no number of bytes unread");
    row->answer.unread = number_column(place, columns[CHANGES] + 7, "no number of bytes unread");
}

/* The changes are words such as power=FFEC. */
static void change(struct place place, uint8_t *record, char *changes) {
    for (char *word = strtok(changes, " "); word != NULL; word = strtok(NULL, " ")) {
        uint8_t bytes[RECORD_SIZE];
        char *value = strchr(word, '=');
        if (value == NULL)
            stop(place, "a change without a value");
        *value++ = '\0';
        const struct field *field = field_named(word);
        if (field == NULL)
            stop(place, "no such field");
        field_set(record, field, bytes, hex_column(place, value, bytes, field->room));
    }
}

static void show(const char *what, const uint8_t *bytes, size_t len) {
    printf("  %s ", what);
    hex_print(bytes, len, " ");
    printf("\n");
}

/* The output has more than enough room for any row. */
static void run_row(struct place place, const struct row *row, const struct program *program, uint8_t *record,
                    const uint8_t *expected) {
    uint8_t output[BOARD_ROOM(PENDING_MOST, BYTES_MOST)];
    const struct request request = {row->call,      record, RECORD_SIZE,  row->input,
                                    row->input_len, output, sizeof output};
    const struct board_answer answer = program->run(&request);
    const bool good = answer.result == BOARD_DONE && answer.written == row->output_len &&
                      answer.skipped == row->skipped && answer.place == 0 &&
                      memcmp(output, row->output, row->output_len) == 0 &&
                      memcmp(record, expected, RECORD_SIZE) == 0;
    if (!tally_case(good))
        return;
    printf("differs: %s:%lu: %s: result %u, skipped %u, place %u\n", place.file, place.line, program->name,
           (unsigned)answer.result, (unsigned)answer.skipped, (unsigned)answer.place);
    show("expected output", row->output, row->output_len);
    show("output         ", output, answer.written <= sizeof output ? answer.written : 0);
    show("expected record", expected, RECORD_SIZE);
    show("record         ", record, RECORD_SIZE);
    tally_printed();
}

static void run_capture_row(struct place place, const struct capture_row *row,
                            const struct program *program) {
    uint32_t list[BYTES_MOST];
    const struct board_reading answer = program->read(row->capture, row->capture_len, list, BYTES_MOST);
    const bool good = same_reading(answer, row->answer) &&
                      memcmp(list, row->list, NUMBERS * answer.entries * sizeof *list) == 0;
    if (!tally_case(good))
        return;
    printf("differs: %s:%lu: %s\n", place.file, place.line, program->name);
    show_reading("expected", row->answer, row->list, BYTES_MOST);
    show_reading("read", answer, list, BYTES_MOST);
    tally_printed();
}

static void one_capture(struct place place, char **columns) {
    struct capture_row row;
    read_capture_row(place, columns, &row);
    for (int i = 0; i < PROGRAMS; i++)
        run_capture_row(place, &row, &programs[i]);
}

/* The record that the rows so far have to leave, and what each program has left. */
struct records {
    uint8_t expected[RECORD_SIZE], left[PROGRAMS][RECORD_SIZE];
};

static void one_call(struct place place, char **columns, struct records *records) {
    struct row row;
    read_row(place, columns, &row);
    if (row.from_factory)
        memcpy(records->expected, factory_record, RECORD_SIZE);
    change(place, records->expected, row.changes);
    for (int i = 0; i < PROGRAMS; i++) {
        const struct request factory = {CALL_FACTORY, records->left[i], RECORD_SIZE, NULL, 0, NULL, 0};
        if (row.from_factory)
            programs[i].run(&factory);
        run_row(place, &row, &programs[i], records->left[i], records->expected);
    }
}

static void run_table(const char *name) {
    struct records records = {0};
    struct place place = {name, 0};
    char line[LINE_MOST], *columns[COLUMNS];
    FILE *file = fopen(name, "r");
    if (file == NULL)
        stop(place, "cannot be read");
    while (fgets(line, sizeof line, file) != NULL) {
        place.line++;
        if (line[0] == '#' || line[0] == '\n')
            continue;
        split(place, line, columns);
        if (strcmp(columns[CALL], "read") == 0)
            one_capture(place, columns);
        else
            one_call(place, columns, &records);
    }
    fclose(file);
}

void run_tables(const struct settings *settings) {
    for (int i = 0; i < settings->tables; i++)
        run_table(settings->table[i]);
}
