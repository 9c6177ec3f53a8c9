#include "memory.h"

#include <string.h>

static uint8_t memory[MEMORY_PAGES][MEMORY_PAGE];
static size_t left = SIZE_MAX; /* bytes until the power fails */

void memory_read(size_t page, uint8_t *bytes, size_t len) { memcpy(bytes, memory[page], len); }

void memory_write(size_t page, const uint8_t *bytes, size_t len) {
    const size_t kept = len < left ? len : left;
    memcpy(memory[page], bytes, kept);
    left -= kept;
}

void memory_fail_after(size_t bytes) { left = bytes; }

void memory_restore(void) { left = SIZE_MAX; }
