/*
 * Headers with very many comments, read on a small stack. The reader takes the same stack for them
 * as for one comment, so a stack on which one byte a comment would not find room is enough.
 * Otherwise the program ends by a signal.
 */
#include "grainbodkin.h"
#include "check.h"

#include <pthread.h>
#include <string.h>

enum { TIMES = 500000, STACK = 256 * 1024, LONGEST_ITEM = 5, SLOTS = 4 };

/*
 * The item stands between the two texts as often as TIMES says. Where the file is a map, it is 2 by
 * 1 with one rock.
 */
static const struct row {
    const char *what;
    const char *before;
    const char *item;
    const char *after;
    uint8_t refusal;
    uint16_t x; /* the rock's */
} rows[] = {
    {"comments, then a blank", "P1", "#\n", " 2 1 01", 0, 1},
    {"comments and no blank", "P1", "#\n", "2 1 01", BODKIN_BAD_HEADER, 0},
    {"blanks and comments in turn, before the width", "P4", " #c\r\t", "2 1\n\x40", 0, 1},
    {"blanks and comments in turn, before the height", "P1 2", "\t#\r", "1 10", 0, 0},
    {"the last comment never ends", "P1 ", "#c\n", "#", BODKIN_BAD_HEADER, 0},
    {"one comment as long", "P1 #", "#", "\n2 1 10", 0, 0},
};

static uint8_t file[TIMES * LONGEST_ITEM + 64];

static size_t append(size_t n, const char *text) {
    memcpy(file + n, text, strlen(text));
    return n + strlen(text);
}

static void *read_all(void *nothing) {
    for (size_t i = 0; i < sizeof rows / sizeof *rows; i++) {
        struct bodkin_marker list[SLOTS] = {{0, 0, 0, 0}};
        size_t n = append(0, rows[i].before);
        for (size_t k = 0; k < TIMES; k++) n = append(n, rows[i].item);
        n = append(n, rows[i].after);
        struct bodkin_read_map map = bodkin_read(file, n, list, SLOTS);
        bool right = map.refusal == rows[i].refusal;
        if (right && map.refusal == 0) right = map.width == 2 && map.height == 1 && map.count == 1 && list[0].x == rows[i].x && list[0].y == 0;
        expect(right, rows[i].what);
    }
    return nothing;
}

int main(void) {
    pthread_attr_t small;
    pthread_t reading;
    if (pthread_attr_init(&small) || pthread_attr_setstacksize(&small, STACK) || pthread_create(&reading, &small, read_all, NULL)) return 1;
    if (pthread_join(reading, NULL)) return 1;
    return verdict("tests/c/long_headers");
}
