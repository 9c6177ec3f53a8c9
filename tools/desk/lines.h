/* Lines taken one by one: bytes for the board, or words. */
#ifndef LINES_H
#define LINES_H

#include "session.h"

/* From standard input; on a terminal with a prompt. Returns how the program ends. */
int take_input(struct session *session);

/* From a text. */
int take_text(struct session *session, const char *text);

/* The prompt stays out of answers that go to a file. */
void ask(const char *prompt);

#endif
