#include "programs.h"

#include "second.h"

#include <string.h>

const char *const call_names[CALLS] = {"factory", "power-on", "bytes", "samples"};

bool call_named(const char *name, enum call *call) {
    int i = 0;
    while (i < CALLS && strcmp(call_names[i], name) != 0)
        i++;
    *call = (enum call)i;
    return i < CALLS;
}

/* The two differ in nothing but the names of their calls and of their answers. */
DEFINE_CALLS(board)
DEFINE_CALLS(second)

const struct program programs[PROGRAMS] = {{"proved", run_board, read_board},
                                           {"second", run_second, read_second}};
