#include "help.h"
#include "board.h"

#include <stdio.h>

/* The first digits of the checksum of the library's sources, given by tools/desk/build. */
#ifndef BOARD_SOURCES
#define BOARD_SOURCES "unknown"
#endif

static const char help[] =
    "desk: what a board answers, in words\n"
    "\n"
    "  ./desk [OPTION..]           lines from the terminal or from standard input\n"
    "  ./desk [OPTION..] LINE      one line\n"
    "  ./desk [--hex] read [FILE]  what a board said: replies and measuring frames in a capture\n"
    "\n"
    "A line is one of these; # starts a remark:\n"
    "  AA 90 23 85                 bytes for the board in hex; blanks, commas and 0x may stand between\n"
    "  factory                     a new record\n"
    "  power-on                    what the board does when it is switched on\n"
    "  sample A B C D E F          a reading of the six channels in decimal numbers\n"
    "  show                        the record in words; 'show code' with the code\n"
    "  help, quit\n"
    "\n"
    "A capture is hex as in such lines or raw bytes; without FILE, or with -, it is standard input.\n"
    "Marks in front of the bytes (RX:, 0000:) have to be stripped, or put behind them as remarks.\n"
    "Commands of a fitter in it are told as well, a code in dots. Its bytes count from 0.\n"
    "\n"
    "  --record FILE               start from this record and keep it there; a new one is from factory\n"
    "                              of a bad one the first bad field is told, and it stays as it is\n"
    "  --hex                       only the bytes of replies and measuring frames, one frame a line\n"
    "  --commands                  the command tables, as in docs/COMMANDS.md\n"
    "  --help, --version\n"
    "\n"
    "Status: 0 done, 1 a call or a record was refused, 2 bad usage or input, 3 it could not be built.\n";

void print_help(void) { fputs(help, stdout); }

void print_version(void) { printf("desk and board %s, sources %s\n", BOARD_VERSION, BOARD_SOURCES); }
