/* What the program says about itself. */
#ifndef HELP_H
#define HELP_H

void print_help(void);
void print_version(void);

#endif
