/* How many cases passed and failed. */
#ifndef TALLY_H
#define TALLY_H

#include <stdbool.h>

struct tally {
    unsigned long passed, failed;
    bool first; /* the first failed case ends the program */
};

extern struct tally tally;

/* Counts a case; true if it failed and its details should be printed, which ends after the first few. */
bool tally_case(bool good);

/* To be called when the details are printed. */
void tally_printed(void);

/* Prints the numbers and answers the program's status. */
int tally_end(void);

#endif
