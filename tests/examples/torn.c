/* A store that is cut after any number of bytes leaves a whole copy: the old record or the new one. */
#include "memory.h"
#include "store.h"

#include <stdio.h>
#include <string.h>

static unsigned passed, failed;

static void check(const char *what, size_t cut, int good) {
    if (good)
        passed++;
    else
        failed++;
    if (!good)
        printf("wrong: %s, cut after %zu bytes\n", what, cut);
}

static void fill(uint8_t *record, size_t seed) {
    for (size_t i = 0; i < BOARD_RECORD_SIZE; i++)
        record[i] = (uint8_t)(seed * 7 + i * 13 + 1);
}

/* Memory that was never written, erased or zero, has no whole copy, and the record is left as it was. */
static void check_empty(uint8_t filling) {
    uint8_t page[MEMORY_PAGE], record[BOARD_RECORD_SIZE], before[BOARD_RECORD_SIZE];
    memset(page, filling, sizeof page);
    for (size_t i = 0; i < MEMORY_PAGES; i++)
        memory_write(i, page, sizeof page);
    fill(before, filling);
    memcpy(record, before, sizeof record);
    check("empty", filling, store_load(record) == 0 && memcmp(record, before, sizeof record) == 0);
}

/* Cuts the store of a record behind another; then the next store must take the torn copy's place. */
static void check_cut(size_t cut) {
    uint8_t old[BOARD_RECORD_SIZE], new[BOARD_RECORD_SIZE], loaded[BOARD_RECORD_SIZE];
    fill(old, 2 * cut);
    fill(new, 2 * cut + 1);
    store_save(old);
    const uint32_t number = store_load(loaded);
    check("old", cut, number > 0 && memcmp(loaded, old, sizeof old) == 0);
    memory_fail_after(cut);
    store_save(new);
    memory_restore();
    const int whole = cut == STORE_COPY_SIZE;
    check("survivor", cut, store_load(loaded) == number + (whole ? 1 : 0));
    check("survivor's bytes", cut, memcmp(loaded, whole ? new : old, sizeof loaded) == 0);
    store_save(new);
    check("next", cut, store_load(loaded) > number && memcmp(loaded, new, sizeof new) == 0);
}

int main(void) {
    check_empty(0x00);
    check_empty(0xFF);
    for (size_t cut = 0; cut <= STORE_COPY_SIZE; cut++)
        check_cut(cut);
    printf("torn: %u passed, %u failed\n", passed, failed);
    return failed > 0;
}
