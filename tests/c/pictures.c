/*
 * The picture calls from C. With no argument it reads a set of good and damaged pictures of both
 * kinds, writes sheets, and compares the answers; `again` reads standard input's picture and writes
 * it again; `distances` reads a map from standard input and writes the picture of its distances to
 * the way named: east, south, west or north.
 */
#include "grainbodkin.h"
#include "check.h"

#include <string.h>

enum { CROSSINGS = BODKIN_CROSSINGS, MOST_BYTES = 262144, MARK = BODKIN_NO_DISTANCE };

static uint16_t sheet[CROSSINGS + 8];
static uint8_t input[MOST_BYTES + 1], output[BODKIN_PICTURE];

struct row {
    const char *what;
    const char *bytes;
    size_t length;
    size_t lent;
    uint8_t refusal;
    uint16_t sheet[6]; /* by crossing number, where the file is a picture */
};

#define FILE_OF(text) text, sizeof(text) - 1

static const struct row rows[] = {
    {"two bytes a crossing, its north row first", FILE_OF("P5\n2 3\n65535\n\0e\0f\1c\377d\377a\0b"), 6, 0, {0xff61, 98, 355, 0xff64, 101, 102}},
    {"one byte a crossing, its north row first", FILE_OF("P5\n2 3\n255\nefcdab"), 6, 0, {'a', 'b', 'c', 'd', 'e', 'f'}},
    {"comments and leading zeros as in maps", FILE_OF("P5 #a\r02\t3#b\n 0255\nefcdab"), 6, 0, {'a', 'b', 'c', 'd', 'e', 'f'}},
    {"leading zeros before 65535", FILE_OF("P5 1 1 000065535 \1\2"), 1, 0, {258}},
    {"high byte first", FILE_OF("P5 2 1 65535 \0\xff\xff\0"), 2, 0, {255, 65280}},
    {"old 255 becomes the mark, and 254 stays", FILE_OF("P5 1 3 255 \xff\n\xfe"), 3, 0, {254, '\n', MARK}},
    {"new 255 stays, and 65535 is the mark", FILE_OF("P5 1 2 65535 \0\xff\xff\xff"), 2, 0, {MARK, 255}},
    {"empty", FILE_OF(""), 6, 12, {0}},
    {"one byte", FILE_OF("P"), 6, 12, {0}},
    {"plain PGM", FILE_OF("P2\n2 3\n255\nefcdab"), 6, 12, {0}},
    {"a raw map", FILE_OF("P4\n2 3\n255\nefcdab"), 6, 12, {0}},
    {"a raw colour picture", FILE_OF("P6\n2 3\n255\nefcdab"), 6, 12, {0}},
    {"letters alone", FILE_OF("P5"), 6, 13, {0}},
    {"two numbers", FILE_OF("P5\n2 3\n"), 6, 13, {0}},
    {"two numbers and a raster that is none", FILE_OF("P5\n2 3\nefcdab"), 6, 13, {0}},
    {"ten digits", FILE_OF("P5\n2 3\n0000000255\nefcdab"), 6, 13, {0}},
    {"a comment after the largest value", FILE_OF("P5\n2 3\n255#a\nefcdab"), 6, 13, {0}},
    {"no blank after the largest value", FILE_OF("P5\n2 3\n255"), 6, 13, {0}},
    {"width 0", FILE_OF("P5\n0 3\n255\n"), 0, 1, {0}},
    {"width 257", FILE_OF("P5\n257 1\n255\nefcdab"), 257, 1, {0}},
    {"a bad size before a bad largest value and a bad sheet", FILE_OF("P5\n2 257\n254\n"), 6, 1, {0}},
    {"a largest value of 0", FILE_OF("P5\n2 3\n0\nefcdab"), 6, 18, {0}},
    {"a largest value of 254", FILE_OF("P5\n2 3\n254\nefcdab"), 6, 18, {0}},
    {"a largest value of 256", FILE_OF("P5\n2 3\n256\nefcdab"), 6, 18, {0}},
    {"a largest value of 256, and two bytes a crossing", FILE_OF("P5\n2 3\n256\n\0e\0f\0c\0d\0a\0b"), 6, 18, {0}},
    {"a largest value of 65534", FILE_OF("P5\n2 3\n65534\n\0e\0f\0c\0d\0a\0b"), 6, 18, {0}},
    {"a largest value of 65536", FILE_OF("P5\n2 3\n65536\n\0e\0f\0c\0d\0a\0b"), 6, 18, {0}},
    {"a largest value of 65791, which sixteen bits cut to 255", FILE_OF("P5\n2 3\n65791\nefcdab"), 6, 18, {0}},
    {"a largest value of 131071, which sixteen bits cut to 65535", FILE_OF("P5\n2 3\n131071\n\0e\0f\0c\0d\0a\0b"), 6, 18, {0}},
    {"a bad largest value before a bad sheet", FILE_OF("P5\n2 3\n254\nefcdab"), 5, 18, {0}},
    {"a sheet one number short", FILE_OF("P5\n2 3\n255\nefcdab"), 5, 2, {0}},
    {"a sheet one number long", FILE_OF("P5\n2 3\n255\nefcdab"), 7, 2, {0}},
    {"a sheet of no numbers", FILE_OF("P5\n2 3\n255\nefcdab"), 0, 2, {0}},
    {"half as many numbers as crossings", FILE_OF("P5\n2 3\n255\nefcdab"), 3, 2, {0}},
    {"as many numbers as bytes", FILE_OF("P5\n2 3\n65535\n\0e\0f\0c\0d\0a\0b"), 12, 2, {0}},
    {"a bad sheet before a raster cut short", FILE_OF("P5\n2 3\n255\n"), 5, 2, {0}},
    {"an old raster one byte short", FILE_OF("P5\n2 3\n255\nefcda"), 6, 14, {0}},
    {"an old raster one byte long", FILE_OF("P5\n2 3\n255\nefcdabc"), 6, 15, {0}},
    {"an old raster of two bytes a crossing", FILE_OF("P5\n2 3\n255\n\0e\0f\0c\0d\0a\0b"), 6, 15, {0}},
    {"a new raster one byte short", FILE_OF("P5\n2 3\n65535\n\0e\0f\0c\0d\0a\0"), 6, 14, {0}},
    {"a new raster one byte long", FILE_OF("P5\n2 3\n65535\n\0e\0f\0c\0d\0a\0b\0"), 6, 15, {0}},
    {"a new raster of one byte a crossing", FILE_OF("P5\n2 3\n65535\nefcdab"), 6, 14, {0}},
};

/* The sheet's numbers from n on, or all of them, are as they were. */
static bool stays(size_t n) {
    for (size_t i = n; i < sizeof sheet / sizeof *sheet; i++)
        if (sheet[i] != 0xABAB) return false;
    return true;
}

static void reading(void) {
    for (size_t i = 0; i < sizeof rows / sizeof *rows; i++) {
        memset(sheet, 0xAB, sizeof sheet);
        struct bodkin_sheet_read r = bodkin_read_sheet((const uint8_t *)rows[i].bytes, rows[i].length, sheet, rows[i].lent);
        bool right = r.refusal == rows[i].refusal;
        if (r.refusal)
            right = right && r.width == 0 && r.height == 0 && stays(0);
        else
            right = right && r.width * r.height == rows[i].lent && memcmp(sheet, rows[i].sheet, rows[i].lent * sizeof *sheet) == 0
                    && stays(rows[i].lent);
        expect(right, rows[i].what);
    }
}

static const char whole[] = "P5\n2 3\n65535\n\0e\xff\xff\1\0\0\xff\0a\xff\xfe";

/* Writes six numbers, or a part or more of them, as a picture of this size into so many bytes. */
static bool writes(size_t sheet_len, size_t width, size_t height, size_t room, uint8_t refusal) {
    static const uint16_t numbers[12] = {'a', 65534, 256, 255, 'e', MARK};
    memset(output, 0xCD, sizeof output);
    struct bodkin_sheet_written r = bodkin_write_sheet(numbers, sheet_len, width, height, output, room);
    size_t end = refusal ? 0 : sizeof whole - 1;
    bool right = r.refusal == refusal && r.bytes == end && memcmp(output, whole, end) == 0;
    for (size_t i = end; i < 100; i++) right &= output[i] == 0xCD;
    return right;
}

static void writing(void) {
    size_t room = sizeof whole - 1;
    expect(writes(6, 2, 3, room, 0), "a sheet written into just the room");
    expect(writes(6, 2, 3, room + 20, 0), "bytes past the end stay");
    expect(writes(6, 2, 3, room - 1, 17), "an output one byte short");
    expect(writes(6, 2, 3, 0, 17), "an output of no bytes");
    expect(writes(5, 2, 3, room, 2), "a sheet one number short, written");
    expect(writes(7, 2, 3, room, 2), "a sheet one number long, written");
    expect(writes(3, 2, 3, room, 2), "a sheet of half as many numbers, written");
    expect(writes(12, 2, 3, room, 2), "a sheet of twice as many numbers, written");
    expect(writes(5, 2, 3, 0, 2), "a bad sheet before an output too short");
    expect(writes(6, 0, 3, room, 1), "width 0, written");
    expect(writes(6, 2, 257, room, 1), "height 257, written");
    expect(writes(5, 257, 3, 0, 1), "a bad size before a bad sheet");
    expect(writes(6, SIZE_MAX, 3, room, 1), "the largest width");
}

/* Whether the largest sheet has all sixteen-bit numbers in order, or what an old picture has. */
static bool holds(bool old) {
    bool right = true;
    for (size_t i = 0; i < CROSSINGS; i++) right &= sheet[i] == (!old ? i : i % 256 == 255 ? MARK : i % 256);
    return right;
}

/* Reads the front of a picture into the largest sheet. */
static uint8_t read_largest(const uint8_t *picture, size_t length) { return bodkin_read_sheet(picture, length, sheet, CROSSINGS).refusal; }

/* Every number of the largest sheet, written and read again; and read from an old picture. */
static void largest(void) {
    static const char head[] = "P5\n256 256\n255\n";
    const size_t before = sizeof head - 1, old = before + CROSSINGS;
    for (size_t i = 0; i < CROSSINGS; i++) sheet[i] = (uint16_t)i;
    struct bodkin_sheet_written w = bodkin_write_sheet(sheet, CROSSINGS, BODKIN_SIDE, BODKIN_SIDE, output, sizeof output);
    memset(sheet, 0xAB, sizeof sheet);
    expect(w.refusal == 0 && w.bytes == BODKIN_PICTURE && read_largest(output, w.bytes) == 0 && holds(false),
           "all sixteen-bit numbers, 256 by 256, are read back");
    memcpy(input, head, before);
    for (size_t i = 0; i < CROSSINGS; i++) input[before + i] = (uint8_t)i;
    expect(read_largest(input, old - 1) == BODKIN_SHORT_RASTER && holds(false), "an old one cut by one byte: refused 14, the sheet stays");
    expect(read_largest(input, old + 1) == BODKIN_LONG_RASTER && holds(false), "with a byte more: refused 15, the sheet stays");
    input[before - 2] = '6';
    expect(read_largest(input, old) == BODKIN_BAD_LARGEST && holds(false), "with 256 as its largest value: refused 18, the sheet stays");
    input[before - 2] = '5';
    expect(read_largest(input, old) == 0 && holds(true), "all bytes, 256 by 256, are read from an old picture");
    expect(read_largest(output, w.bytes - 1) == BODKIN_SHORT_RASTER && holds(true), "a new one cut by one byte: refused 14, the sheet stays");
    output[w.bytes - 2 * CROSSINGS - 2] = '4';
    expect(read_largest(output, w.bytes) == BODKIN_BAD_LARGEST && holds(true), "with 65534 as its largest value: refused 18, the sheet stays");
}

static int again(void) {
    size_t n = fread(input, 1, sizeof input, stdin);
    /* A picture of another size than the sheet is refused 2: each size is tried. */
    for (size_t lent = 1; lent <= CROSSINGS; lent++) {
        struct bodkin_sheet_read r = bodkin_read_sheet(input, n, sheet, lent);
        if (r.refusal == BODKIN_BAD_SHEET) continue;
        if (r.refusal) {
            printf("refused %d\n", r.refusal);
            return 1;
        }
        struct bodkin_sheet_written w = bodkin_write_sheet(sheet, lent, r.width, r.height, output, sizeof output);
        return w.refusal == 0 && fwrite(output, 1, w.bytes, stdout) == w.bytes ? 0 : 1;
    }
    return 1;
}

static int distances(const char *way) {
    static struct bodkin_marker list[BODKIN_MARKERS];
    static uint8_t labels[CROSSINGS];
    static uint16_t sheets[4][CROSSINGS];
    static const char *const ways[] = {"east", "south", "west", "north"};
    size_t n = fread(input, 1, sizeof input, stdin);
    struct bodkin_read_map map = bodkin_read(input, n, list, BODKIN_MARKERS);
    size_t size = map.width * map.height;
    if (map.refusal || bodkin_measure(list, BODKIN_MARKERS, map.count, map.width, map.height, 0, labels, size, sheets[0], size, sheets[1], size, sheets[2],
                                      size, sheets[3], size))
        return 1;
    for (size_t i = 0; i < 4; i++) {
        if (strcmp(way, ways[i]) != 0) continue;
        struct bodkin_sheet_written w = bodkin_write_sheet(sheets[i], size, map.width, map.height, output, sizeof output);
        return w.refusal == 0 && fwrite(output, 1, w.bytes, stdout) == w.bytes ? 0 : 1;
    }
    return 1;
}

int main(int argc, char **argv) {
    if (argc > 2) return distances(argv[2]);
    if (argc > 1) return again();
    reading();
    writing();
    largest();
    return verdict("tests/c/pictures");
}
