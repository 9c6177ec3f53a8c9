/* The chair's memory that keeps its bytes without power. Here it is an array; a chair has its own driver. */
#ifndef MEMORY_H
#define MEMORY_H

#include <stddef.h>
#include <stdint.h>

/* The bytes of a page, which are erased at once, and how many pages there are. */
#define MEMORY_PAGE 256
#define MEMORY_PAGES 2

/* Both start at the beginning of a page. */
void memory_read(size_t page, uint8_t *bytes, size_t len);

void memory_write(size_t page, const uint8_t *bytes, size_t len);

/* For trials: after so many more bytes the power fails, and what is written then is lost. */
void memory_fail_after(size_t bytes);

/* For trials: the power is back. */
void memory_restore(void);

#endif
