/* Sessions with a board, whose bytes have to be read back. */
#ifndef SESSIONS_H
#define SESSIONS_H

#include "draw.h"

/* What both programs write is read back as what each command and each sample meant. */
void every_session(struct draw *draw);

#endif
