#include "page.h"

#include "board.h"
#include "commands.h"

#include <stdio.h>

static const char *access_words(enum access access) {
    switch (access) {
    case NOT_BUILT:
        return "not built";
    case ALWAYS:
        return "always";
    case OPEN:
        return "mode open";
    case CLOSED:
        return "mode closed";
    case CLOSED_UNLOCKED:
        return "mode closed, unlocked";
    case CLOSED_TRIES_LEFT:
        return "mode closed, a try left, the right code";
    }
    return "";
}

static void print_size(const struct field *field) {
    if (field->fewest != field->most)
        printf("%d to %d bytes", field->fewest, field->most);
    else
        printf("%d byte%s", field->most, field->most == 1 ? "" : "s");
}

static const char *sign_words(const struct field *field) {
    if (field->form == FORM_SIGNED)
        return ", signed";
    return field->form == FORM_UNSIGNED || field->form == FORM_FILTER ? ", unsigned" : "";
}

/* The single values that have words: "(0 = LE, 1 = Classic)". */
static void print_singles(const struct field *field) {
    bool number = true;
    printf(" (");
    for (const char *at = field->words; *at != '\0'; at++) {
        if (*at == ';')
            printf(", ");
        else if (*at == ' ' && number)
            printf(" = ");
        else
            printf("%c", *at);
        number = *at == ';' || (number && *at != ' ');
    }
    printf(")");
}

static void print_range(const struct field *field) {
    char range[FIELD_WORDS_MOST];
    field_range(field, range);
    printf("%s", range);
    if (field->words != NULL)
        print_singles(field);
}

static void print_parameters(const struct command *command) {
    if (command->parameters[0] == NULL)
        printf(command->access == NOT_BUILT ? "|" : "none |");
    for (size_t i = 0; i < FIELDS_MOST && command->parameters[i] != NULL; i++) {
        printf("%s%s, ", i == 0 ? "" : "; ", command->parameters[i]->name);
        print_size(command->parameters[i]);
        printf("%s", sign_words(command->parameters[i]));
    }
    printf(command->parameters[0] == NULL ? " " : " | ");
    for (size_t i = 0; i < FIELDS_MOST && command->parameters[i] != NULL; i++) {
        printf("%s", i == 0 ? "" : "; ");
        print_range(command->parameters[i]);
    }
    printf(command->parameters[0] == NULL ? "|" : " |");
}

/* A field of one value is that value; the lock is no setting, so its words stand here. */
static void print_datum(const struct field *field) {
    printf("%s", field->name);
    if (field == &field_indicator)
        return;
    printf(", ");
    print_size(field);
    printf("%s", field->form == FORM_FLOAT ? ", float" : sign_words(field));
    if (field->unit != NULL && field->form != FORM_SIGNED)
        printf("%s", field->unit);
    if (field == &field_lock)
        print_singles(field);
}

static void print_data(const struct command *command) {
    if (command->data[0] == NULL)
        printf(command->access == NOT_BUILT ? " " : " none ");
    for (size_t i = 0; i < FIELDS_MOST && command->data[i] != NULL; i++) {
        printf(i == 0 ? " " : "; ");
        print_datum(command->data[i]);
    }
    printf(command->data[0] == NULL ? "|" : " |");
}

static void print_commands(const char *title, enum kind kind) {
    printf("### %s\n\n", title);
    printf("| no. | asks | parameters | range | access | reply data | name in the sources |\n");
    printf("|---|---|---|---|---|---|---|\n");
    for (size_t i = 0; i < commands_count; i++) {
        const struct command *command = &commands[i];
        if (command->kind != kind)
            continue;
        printf("| %02X | %s | ", command->number, command->title);
        print_parameters(command);
        printf(" %s |", access_words(command->access));
        print_data(command);
        printf(" %s |\n", command->source);
    }
    printf("\n");
}

/* The numbers of the commands with the field as their last parameter, or as their first data. */
static void print_numbers(const struct field *set, const struct field *read) {
    for (size_t i = 0; i < commands_count; i++) {
        const struct field *const *parameters = commands[i].parameters;
        const struct field *last = parameters[1] != NULL ? parameters[1] : parameters[0];
        if ((set != NULL && last == set) || (read != NULL && commands[i].data[0] == read))
            printf(" %02X", commands[i].number);
    }
    printf(" |");
}

static void print_setting(const uint8_t *record, size_t at, size_t len, const struct field *set,
                          const struct field *read) {
    char words[FIELD_WORDS_MOST];
    field_words(set, record + at, len, words);
    printf("| %s | %s |", set->name, words);
    print_numbers(set, NULL);
    print_numbers(NULL, read);
    printf("\n");
}

/* The values are those that the library's factory call writes. */
static void print_settings(void) {
    uint8_t record[BOARD_RECORD_SIZE];
    board_factory(record, sizeof record);
    printf("### Settings fresh from the factory\n\n");
    printf("| setting | factory value | set by | read by |\n|---|---|---|---|\n");
    print_setting(record, BOARD_AT_POWER, BOARD_POWER_SIZE, &field_power, &field_power);
    print_setting(record, BOARD_AT_STEP, 1, &field_step, &field_step);
    print_setting(record, BOARD_AT_MODE, 1, &field_mode, &field_mode);
    print_setting(record, BOARD_AT_ON_OFF, 1, &field_on_off, &field_on_off);
    print_setting(record, BOARD_AT_INPUT_TYPES, 1, &field_type, &field_type);
    print_setting(record, BOARD_AT_INTERVAL, 1, &field_interval, &field_interval);
    print_setting(record, BOARD_AT_FILTER, BOARD_FILTER_SIZE, &field_filter, &field_filter);
    print_setting(record, BOARD_AT_NAME, record[BOARD_AT_NAME_LENGTH], &field_name, &field_name);
    print_setting(record, BOARD_AT_MODEL, 0, &field_model, &field_model_read);
    printf("\n");
}

static void print_statuses(void) {
    printf("### Statuses, in the order in which the board looks\n\n");
    printf("| status | says | when |\n|---|---|---|\n");
    for (size_t i = 0; i < statuses_count; i++)
        printf("| %02X | %s | %s |\n", (unsigned)statuses[i].status, statuses[i].says, statuses[i].when);
}

void print_page(void) {
    print_commands("Amplifier commands, head 9n", AMPLIFIER);
    print_commands("BT121 commands, head An", BT121);
    print_settings();
    print_statuses();
}
