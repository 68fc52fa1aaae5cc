/*
 * The map reader and writer from C. With no argument it reads a set of good and damaged files and
 * compares the answers; `read` prints standard input's map as rows of 0 and 1 from the north, or
 * its refusal; `write` writes it again as P4.
 */
#include "grainbodkin.h"
#include "check.h"

#include <string.h>

enum { CROSSINGS = BODKIN_SIDE * BODKIN_SIDE, MOST_BYTES = 262144 };

static struct bodkin_marker list[BODKIN_MARKERS];
static struct bodkin_read_map map;
static uint8_t rocks[CROSSINGS], input[MOST_BYTES + 1], output[MOST_BYTES];

static void read_map(const uint8_t *bytes, size_t n, size_t slots) {
    map = bodkin_read(bytes, n, list, slots);
    memset(rocks, 0, sizeof rocks);
    for (size_t k = 0; k < map.count; k++) rocks[list[k].y * map.width + list[k].x] = 1;
}

struct row {
    const char *what;
    const char *bytes;
    size_t length;
    size_t slots;
    uint8_t refusal;
    const char *raster; /* the map's rows from the north, where it is one */
};

#define FILE_OF(text) text, sizeof(text) - 1

static const struct row rows[] = {
    {"document 01's example", FILE_OF("P1\n4 3\n0010\n0100\n0000\n"), 9, 0, "001001000000"},
    {"the same packed", FILE_OF("P4\n4 3\n\x20\x40\x00"), 9, 0, "001001000000"},
    {"pad bits are ignored", FILE_OF("P4\n4 3\n\x2f\x4f\x0f"), 9, 0, "001001000000"},
    {"nine columns take two bytes", FILE_OF("P4 9 1 \x80\x80"), 9, 0, "100000001"},
    {"TAB, CR and LF are blanks", FILE_OF("P4\t2\r1\n\x40"), 9, 0, "01"},
    {"comments in separators", FILE_OF("P1 #a\n#b\r2#c\n 1\n01"), 9, 0, "01"},
    {"leading zeros", FILE_OF("P1 000000002 01 1 0"), 9, 0, "10"},
    {"blanks before, between and after", FILE_OF("P1 2 1 \n 1 \t 0 \r\n "), 9, 0, "10"},
    {"a slot for each rock", FILE_OF("P1 2 1 11"), 2, 0, "11"},
    {"empty", FILE_OF(""), 9, 12, 0},
    {"one byte", FILE_OF("P"), 9, 12, 0},
    {"other letters", FILE_OF("P5 1 1 0"), 9, 12, 0},
    {"letters alone", FILE_OF("P4"), 9, 13, 0},
    {"no separator", FILE_OF("P41 1 0"), 9, 13, 0},
    {"a comment is no blank", FILE_OF("P1#c\n1 1 0"), 9, 13, 0},
    {"a comment that never ends", FILE_OF("P1 #c"), 9, 13, 0},
    {"a number followed by #", FILE_OF("P1 2#c\n1 01"), 9, 13, 0},
    {"a comment after the height", FILE_OF("P1 2 1#c\n 01"), 9, 13, 0},
    {"ten digits", FILE_OF("P1 0000000002 1 01"), 9, 13, 0},
    {"no height", FILE_OF("P1 2 "), 9, 13, 0},
    {"no blank after the height", FILE_OF("P1 2 1"), 9, 13, 0},
    {"a sign", FILE_OF("P1 -2 1 01"), 9, 13, 0},
    {"a foreign byte in a P1 raster", FILE_OF("P1 2 1 0x1"), 9, 13, 0},
    {"a foreign byte after the last digit there is, before the one that would complete the raster", FILE_OF("P1 2 1 0x"), 9, 13, 0},
    {"a foreign byte and no digit at all", FILE_OF("P1 2 1 x"), 9, 13, 0},
    {"a comment in a P1 raster", FILE_OF("P1 2 1 0#c\n1"), 9, 13, 0},
    {"width 0", FILE_OF("P1 0 1 "), 9, 1, 0},
    {"257 columns", FILE_OF("P4 257 1 "), 9, 1, 0},
    {"999,999,999 rows", FILE_OF("P4 1 999999999 "), 9, 1, 0},
    {"a P4 raster short by a byte", FILE_OF("P4 9 1 \x80"), 9, 14, 0},
    {"a P1 raster short by a digit", FILE_OF("P1 2 1 0"), 9, 14, 0},
    {"a P4 raster long by a byte", FILE_OF("P4 1 1 \x80\n"), 9, 15, 0},
    {"two blanks after the height in P4", FILE_OF("P4 1 1  \x80"), 9, 15, 0},
    {"a third digit in P1", FILE_OF("P1 2 1 010"), 9, 15, 0},
    {"a foreign byte after the digit that completes the raster", FILE_OF("P1 2 1 01x"), 9, 15, 0},
    {"the same, with a digit after it", FILE_OF("P1 2 1 01x1"), 9, 15, 0},
    {"no slot", FILE_OF("P1 2 1 11"), 1, 7, 0},
    {"no slot, but the raster's fault comes first", FILE_OF("P1 2 1 111"), 1, 15, 0},
};

static bool same_map(const char *raster) {
    size_t k = 0;
    for (size_t y = map.height; y-- > 0;)
        for (size_t x = 0; x < map.width; x++, k++)
            if (raster[k] != (rocks[y * map.width + x] ? '1' : '0')) return false;
    return raster[k] == 0;
}

/* Slots from k on are as they were; the ids before them are 1, 2, 3 and on, the heights 65,535. */
static bool slots_right(size_t k) {
    bool right = true;
    for (size_t i = 0; i < k; i++) right &= list[i].id == i + 1 && list[i].height == BODKIN_TALLEST;
    for (size_t i = k; i < BODKIN_MARKERS; i++) right &= list[i].id == 0xABCD && list[i].x == 0xABCD && list[i].y == 0xABCD && list[i].height == 0xABCD;
    return right;
}

static int table(void) {
    for (size_t i = 0; i < sizeof rows / sizeof *rows; i++) {
        for (size_t k = 0; k < BODKIN_MARKERS; k++) list[k].id = list[k].x = list[k].y = list[k].height = 0xABCD;
        read_map((const uint8_t *)rows[i].bytes, rows[i].length, rows[i].slots);
        expect(map.refusal == rows[i].refusal && slots_right(map.count) && (map.refusal != 0 || same_map(rows[i].raster)), rows[i].what);
    }
    return verdict("tests/c/files");
}

int main(int argc, char **argv) {
    if (argc < 2) return table();
    read_map(input, fread(input, 1, sizeof input, stdin), BODKIN_MARKERS);
    if (map.refusal) {
        printf("refused %d\n", map.refusal);
        return 1;
    }
    if (strcmp(argv[1], "read") == 0) {
        printf("%zu %zu\n", map.width, map.height);
        for (size_t y = map.height; y-- > 0; putchar('\n'))
            for (size_t x = 0; x < map.width; x++) putchar(rocks[y * map.width + x] ? '1' : '0');
        return 0;
    }
    struct bodkin_wrote_map wrote = bodkin_write(list, BODKIN_MARKERS, map.count, map.width, map.height, 0, output, sizeof output);
    if (wrote.refusal) return 1;
    return fwrite(output, 1, wrote.bytes, stdout) == wrote.bytes ? 0 : 1;
}
