/* The parts of the comparison, each in the file of its name. */
#ifndef PARTS_H
#define PARTS_H

/* What the command line says; without a part all are run. */
struct settings {
    unsigned long seed, calls;
    const char *part;
    int tables;
    char **table;
};

void run_tables(const struct settings *settings);
void run_commands(const struct settings *settings);
void run_limits(const struct settings *settings);
void run_hunts(const struct settings *settings);
void run_changes(const struct settings *settings);
void run_faults(const struct settings *settings);
void run_readings(const struct settings *settings);
void run_streams(const struct settings *settings);
void run_captures(const struct settings *settings);

#endif
