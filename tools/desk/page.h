/* The tables of docs/COMMANDS.md. */
#ifndef PAGE_H
#define PAGE_H

void print_page(void);

#endif
