/* How the processor takes floats while a program runs. */
#ifndef MODE_H
#define MODE_H

#include <stdbool.h>

/* As C programs start, and as those linked with -ffast-math do: subnormal floats are taken for zero. */
enum mode { MODE_USUAL, MODE_FLUSHED, MODES };

extern const char *const mode_names[MODES];

/* False if there is no such mode. */
bool mode_named(const char *name, enum mode *mode);

/* Answers what mode_leave needs to go back. */
unsigned mode_enter(enum mode mode);

void mode_leave(unsigned before);

/* Whether a float comparison in the mode finds the smallest subnormal above zero. */
bool mode_tells_subnormals(enum mode mode);

#endif
