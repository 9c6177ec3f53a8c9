/* Where a capture comes from, and whether it is hex text or raw bytes. */
#ifndef FEED_H
#define FEED_H

#include <stdbool.h>

/* From a file; from standard input if the path is NULL or "-". Returns how the program ends. */
int read_capture(const char *path, bool hex);

#endif
