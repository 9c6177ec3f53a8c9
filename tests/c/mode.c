#include "mode.h"

#include <string.h>
#include <xmmintrin.h>

/* The bits of the control word by which subnormal operands, and subnormal results, are zero. */
static const unsigned flushing = 0x0040 | 0x8000;

const char *const mode_names[MODES] = {"usual", "flushed"};

bool mode_named(const char *name, enum mode *mode) {
    int i = 0;
    while (i < MODES && strcmp(mode_names[i], name) != 0)
        i++;
    *mode = (enum mode)i;
    return i < MODES;
}

unsigned mode_enter(enum mode mode) {
    const unsigned before = _mm_getcsr();
    _mm_setcsr(mode == MODE_FLUSHED ? before | flushing : before & ~flushing);
    return before;
}

void mode_leave(unsigned before) { _mm_setcsr(before); }

/* Volatile, so that the comparison is made at run time and between the two changes of the mode. */
bool mode_tells_subnormals(enum mode mode) {
    volatile float smallest = 0x1p-149f, zero = 0;
    const unsigned before = mode_enter(mode);
    volatile bool told = smallest > zero;
    mode_leave(before);
    return told;
}
