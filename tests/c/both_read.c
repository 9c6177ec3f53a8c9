#include "both_read.h"

#include "both.h"
#include "hex.h"
#include "lend.h"
#include "tally.h"

#include <stdio.h>
#include <string.h>

enum { NUMBERS = BOARD_ENTRY_NUMBERS, NUMBER_SIZE = sizeof(uint32_t), GUARD_NUMBERS = GUARD / NUMBER_SIZE };

/* One byte less than the longest reply. */
enum { UNREAD_MOST = 273 };

/* A program's own copy of what is lent, each buffer between guards. */
struct lent {
    uint8_t guard, list_guard;
    uint8_t capture[GUARD + CAPTURE_ROOM + GUARD];
    uint32_t list[GUARD_NUMBERS + LIST_ROOM + GUARD_NUMBERS];
    struct board_reading answer;
};

static struct lent lents[PROGRAMS];

static const struct captured *current;

static const uint32_t *list_of(const struct lent *lent) { return lent->list + GUARD_NUMBERS; }

static void run(const struct program *program, const struct captured *given, struct lent *lent) {
    const uint8_t *capture = lend(lent->capture, given->capture, given->capture_len, lent->guard);
    uint32_t *list = lent->list + GUARD_NUMBERS;
    lend((uint8_t *)lent->list, NULL, given->list_len * NUMBER_SIZE, lent->list_guard);
    if (given->null && given->capture_len == 0)
        capture = NULL;
    if (given->null && given->list_len == 0)
        list = NULL;
    lent->answer = program->read(capture, given->capture_len, list, given->list_len);
}

static bool all_guarded(const struct lent *lent, const struct captured *given) {
    return guarded(lent->capture, given->capture_len, lent->guard) &&
           guarded((const uint8_t *)lent->list, given->list_len * NUMBER_SIZE, lent->list_guard);
}

static bool capture_kept(const struct lent *lent, const struct captured *given) {
    return given->capture_len == 0 || memcmp(lent->capture + GUARD, given->capture, given->capture_len) == 0;
}

/* Numbers behind the last entry have the filling; false too if the entries do not fit. */
static bool rest_kept(const struct lent *lent, const struct captured *given) {
    uint32_t filling;
    memset(&filling, FILLING, sizeof filling);
    if (lent->answer.entries > given->list_len / NUMBERS)
        return false;
    for (size_t i = NUMBERS * lent->answer.entries; i < given->list_len; i++) {
        if (list_of(lent)[i] != filling)
            return false;
    }
    return true;
}

/* Whether the entry has the status and count of a frame with its head and this third byte. */
static bool tells_of(const uint32_t *entry, uint8_t third) {
    const uint32_t head = entry[BOARD_ENTRY_HEAD], status = entry[BOARD_ENTRY_STATUS],
                   count = entry[BOARD_ENTRY_COUNT];
    if (head == 0x15)
        return third == 0xB0 && status == third && count == 24;
    if (head == 0x5F || head == 0x6F)
        return status == 0 && count == 15u + third;
    return head >= 0x50 && head <= 0x6F && status == third && count == head % 16;
}

/* Whether the entry's frame is in the capture, and not in front of this place. */
static bool is_there(const uint32_t *entry, const struct captured *given, size_t from) {
    const size_t place = entry[BOARD_ENTRY_PLACE], count = entry[BOARD_ENTRY_COUNT];
    if (place < from + 3 || place >= given->capture_len || count >= given->capture_len - place)
        return false;
    const uint8_t *frame = given->capture + place - 3;
    return frame[0] == 0xAA && frame[1] == entry[BOARD_ENTRY_HEAD] && tells_of(entry, frame[2]) &&
           frame[3 + count] == 0x85;
}

/* Whether so many bytes at the end may wait, as far as their number and the first tell. */
static bool may_wait(size_t unread, const struct captured *given) {
    return unread == 0 || (unread <= UNREAD_MOST && unread <= given->capture_len &&
                           given->capture[given->capture_len - unread] == 0xAA);
}

/* Without looking for frames: those told of are there, one behind the other, and all bytes are counted. */
static bool adds_up(const struct lent *lent, const struct captured *given) {
    const struct board_reading *answer = &lent->answer;
    const uint32_t *entry = list_of(lent);
    size_t behind = 0, counted = (size_t)answer->skipped + answer->unread;
    if (answer->result != BOARD_DONE)
        return answer->entries == 0 && counted == 0;
    for (size_t i = 0; i < answer->entries; i++, entry += NUMBERS) {
        if (!is_there(entry, given, behind))
            return false;
        behind = (size_t)entry[BOARD_ENTRY_PLACE] + entry[BOARD_ENTRY_COUNT] + 1;
        counted += entry[BOARD_ENTRY_COUNT] + 4;
    }
    return counted == given->capture_len && behind + answer->unread <= given->capture_len &&
           may_wait(answer->unread, given);
}

static bool is_good(const struct lent *lent, const struct captured *given) {
    return all_guarded(lent, given) && capture_kept(lent, given) && rest_kept(lent, given) &&
           adds_up(lent, given);
}

bool same_reading(struct board_reading a, struct board_reading b) {
    return a.result == b.result && a.entries == b.entries && a.skipped == b.skipped && a.unread == b.unread;
}

static bool same(const struct lent *a, const struct lent *b, size_t list_len) {
    return same_reading(a->answer, b->answer) && memcmp(list_of(a), list_of(b), list_len * NUMBER_SIZE) == 0;
}

static void show_case(void) {
    const char *empty = current->null ? "null" : "-";
    printf("differs: --replay read ");
    if (current->capture_len == 0)
        printf("%s", empty);
    else
        hex_print(current->capture, current->capture_len, "");
    if (current->list_len == 0)
        printf(" %s\n", empty);
    else
        printf(" %zu\n", current->list_len);
}

void show_reading(const char *whose, struct board_reading answer, const uint32_t *list, size_t list_len) {
    printf("  %s: result %u, entries %u, skipped %u, unread %u\n", whose, (unsigned)answer.result,
           (unsigned)answer.entries, (unsigned)answer.skipped, (unsigned)answer.unread);
    for (size_t i = 0; i < answer.entries && i < list_len / NUMBERS; i++, list += NUMBERS)
        printf("    %02X %02X %u %u\n", (unsigned)list[0], (unsigned)list[1], (unsigned)list[2],
               (unsigned)list[3]);
}

static void show_left(const struct program *program, const struct lent *lent, const struct captured *given) {
    show_reading(program->name, lent->answer, list_of(lent), given->list_len);
    printf("    guards %s, capture %s, rest of the list %s\n", all_guarded(lent, given) ? "kept" : "broken",
           capture_kept(lent, given) ? "kept" : "changed", rest_kept(lent, given) ? "kept" : "changed");
}

struct left both_read(const struct captured *given) {
    static unsigned turn;
    bool good = true;
    turn = (turn + 1) % TURNS;
    current = given;
    both_show = show_case;
    for (unsigned i = 0; i < PROGRAMS; i++) {
        lents[i].guard = guards[turn][i];
        lents[i].list_guard = guards[(turn + 1) % TURNS][i];
        run(&programs[i], given, &lents[i]);
        good = good && is_good(&lents[i], given);
    }
    good = good && same(&lents[PROVED], &lents[SECOND], given->list_len);
    if (tally_case(good)) {
        show_case();
        for (unsigned i = 0; i < PROGRAMS; i++)
            show_left(&programs[i], &lents[i], given);
        tally_printed();
    }
    return (struct left){good, lents[SECOND].answer, list_of(&lents[SECOND])};
}

struct left both_capture(const uint8_t *capture, size_t len, size_t over) {
    return both_read(&(struct captured){capture, len, NUMBERS * BOARD_ENTRIES(len) + over, false});
}
