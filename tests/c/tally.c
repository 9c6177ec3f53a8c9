#include "tally.h"

#include <stdio.h>
#include <stdlib.h>

struct tally tally;

/* One fault mostly shows in very many cases; the first tell enough. */
enum { SHOWN = 10 };

bool tally_case(bool good) {
    if (good)
        tally.passed++;
    else
        tally.failed++;
    return !good && tally.failed <= SHOWN;
}

void tally_printed(void) {
    if (tally.first)
        exit(tally_end());
}

int tally_end(void) {
    printf("%lu passed, %lu failed\n", tally.passed, tally.failed);
    return tally.failed == 0 ? 0 : 1;
}
