/*
 * The limits of a map and a list, each at its last good value and one past it: a side of 256, 8,192
 * markers, an id of 65,535, crossing number 65,535, a distance of 255, column and row 255 as
 * crossing lines, and map files with as many rocks as a list may hold and with more. And rows wider
 * than 64, which take several words of bits.
 */
#include "grainbodkin.h"
#include "check.h"

#include <string.h>

enum {
    SIDE = BODKIN_SIDE,
    CROSSINGS = BODKIN_CROSSINGS,
    LAST = SIDE - 1,
    SLOTS = CROSSINGS,
    HEADER = 11
};

static struct bodkin_marker list[SLOTS], before[SLOTS];
static uint8_t labels[CROSSINGS + SIDE], region[CROSSINGS];
static uint8_t file[HEADER + CROSSINGS + 1], out[BODKIN_FILE];
static uint16_t ways[4][CROSSINGS + SIDE], route[BODKIN_ROUTE];

static struct bodkin_marker one(uint16_t id, size_t x, size_t y) {
    return (struct bodkin_marker){id, (uint16_t)x, (uint16_t)y, BODKIN_TALLEST};
}

/* Labels and measures a map of this size with one rock at (x, y), and sheets of its size. */
static uint8_t asked(size_t width, size_t height, size_t x, size_t y) {
    size_t n = width * height;
    list[0] = one(1, x, y);
    uint8_t refusal = bodkin_label(list, SLOTS, 1, width, height, 0, labels, n).refusal;
    uint8_t measured = bodkin_measure(list, SLOTS, 1, width, height, 0, labels, n, ways[0], n, ways[1],
                                      n, ways[2], n, ways[3], n);
    return refusal == measured ? refusal : 255;
}

static void sizes(void) {
    expect(asked(SIDE, SIDE, LAST, LAST) == BODKIN_DONE && labels[CROSSINGS - 1] == BODKIN_ROCK,
           "256 by 256: the rock is at crossing number 65,535");
    expect(asked(SIDE, 1, LAST, 0) == BODKIN_DONE && asked(1, SIDE, 0, LAST) == BODKIN_DONE,
           "256 by 1 and 1 by 256");
    expect(asked(SIDE + 1, 1, 0, 0) == BODKIN_BAD_SIZE, "257 by 1: refused 1");
    expect(asked(1, SIDE + 1, 0, 0) == BODKIN_BAD_SIZE, "1 by 257: refused 1");
    expect(asked(SIDE + 1, SIDE, 0, 0) == BODKIN_BAD_SIZE, "257 by 256: refused 1");
    expect(asked(SIDE, SIDE, SIDE, 0) == BODKIN_BAD_LIST, "a marker at x 256: refused 3");
    expect(asked(SIDE, SIDE, 0, SIDE) == BODKIN_BAD_LIST, "a marker at y 256: refused 3");
    struct bodkin_four off =
        bodkin_distances(list, SLOTS, 0, SIDE, SIDE, 0, SIDE, 0, labels, CROSSINGS);
    expect(off.refusal == BODKIN_BAD_PLACE, "a place at 256: refused 4");
}

/* A marker with the last id on the last crossing, and one past each. */
static void last_marker(void) {
    expect(bodkin_enter(list, SLOTS, 0, SIDE, SIDE, 65535, SIDE, LAST, BODKIN_TALLEST).refusal == BODKIN_BAD_PLACE
               && bodkin_enter(list, SLOTS, 0, SIDE, SIDE, 65535, LAST, SIDE, BODKIN_TALLEST).refusal == BODKIN_BAD_PLACE,
           "a marker entered at 256: refused 4");
    expect(bodkin_enter_wide(list, SLOTS, 0, SIDE, SIDE, 65536, LAST, LAST, BODKIN_TALLEST).refusal == BODKIN_BAD_PLACE,
           "id 65,536, which sixteen bits cut to 0: refused 4");
    struct bodkin_counted counted = bodkin_enter(list, SLOTS, 0, SIDE, SIDE, 65535, LAST, LAST, BODKIN_TALLEST);
    expect(counted.refusal == 0 && counted.count == 1 && list[0].id == 65535 && list[0].x == LAST
               && list[0].y == LAST,
           "id 65,535 is entered on crossing number 65,535");
    counted = bodkin_enter(list, SLOTS, 1, SIDE, SIDE, 65535, 0, 0, BODKIN_TALLEST);
    expect(counted.refusal == BODKIN_ID_IN_USE, "and is in use: refused 5");
}

/* Labels the largest map with the first so many markers of the list. */
static struct bodkin_labelling label(size_t count) {
    return bodkin_label(list, SLOTS, count, SIDE, SIDE, 0, labels, CROSSINGS);
}

/* A crossing shuts between two rocks at any place of its row, next to a multiple of 64 too. */
static void along_a_row(void) {
    bool all = true;
    for (size_t x = 1; x < LAST; x++) {
        list[0] = one(1, x - 1, 7);
        list[1] = one(2, x + 1, 7);
        struct bodkin_labelling r = label(2);
        all &= r.shut == 1 && r.groups == 1 && labels[7 * SIDE + x] == BODKIN_SHUT;
    }
    expect(all, "between two rocks, at each place of a row of 256");
}

/* Along a wall from edge to edge one rock beside it shuts the whole row, both ways. */
static void along_a_wall(void) {
    bool all = true;
    for (size_t rock = 0; rock < SIDE; rock++) {
        for (size_t x = 0; x < SIDE; x++) list[x] = one((uint16_t)(x + 1), x, 7);
        list[SIDE] = one(SIDE + 1, rock, 8);
        struct bodkin_labelling r = label(SIDE + 1);
        all &= r.rocks == SIDE + 1 && r.shut == LAST && r.groups == 1
               && labels[8 * SIDE] != BODKIN_OPEN && labels[8 * SIDE + LAST] != BODKIN_OPEN;
    }
    expect(all, "along a wall, from a rock at each place of the row beside it");
}

/* Whether a crossing of the largest map, with one marker in the list, has these four distances. */
static bool has(size_t x, size_t y, uint16_t east, uint16_t south, uint16_t west, uint16_t north) {
    struct bodkin_four r = bodkin_distances(list, SLOTS, 1, SIDE, SIDE, 0, x, y, labels, CROSSINGS);
    return r.refusal == 0 && r.four[0] == east && r.four[1] == south && r.four[2] == west
           && r.four[3] == north;
}

/* One rock in a corner of the largest map: 255 is a distance there, and 65,535 is none. */
static void longest_distances(void) {
    list[0] = one(65535, LAST, 0);
    expect(has(0, 0, 255, 65535, 65535, 65535), "(0,0) has 255, 65535, 65535, 65535");
    expect(has(LAST, LAST, 65535, 255, 65535, 65535), "(255,255) has 65535, 255, 65535, 65535");
    expect(asked(SIDE, SIDE, LAST, 0) == BODKIN_DONE && ways[0][0] == 255 && ways[0][1] == 254
               && ways[0][LAST] == 0 && ways[0][SIDE] == 65535,
           "the east sheet: 255 in the rock's row, none in the next");
    expect(ways[1][CROSSINGS - 1] == 255 && ways[1][2 * SIDE - 1] == 1
               && ways[1][CROSSINGS - 2] == 65535,
           "the south sheet: 255 in the rock's column, none in the next");
    expect(asked(SIDE, SIDE, 0, LAST) == BODKIN_DONE && ways[2][CROSSINGS - 1] == 255
               && ways[3][0] == 255,
           "the west and north sheets, from the other corner");
}

/* Whether home (0,0) is assured for a place of the largest map, with one rock in its column. */
static bool assured(size_t rock, size_t x, size_t y) {
    list[0] = one(1, 0, rock);
    struct bodkin_assurance r =
        bodkin_assured(list, SLOTS, 1, SIDE, SIDE, 0, 0, 0, x, y, labels, CROSSINGS);
    return r.refusal == 0 && r.assured;
}

static void longest_offsets(void) {
    expect(assured(LAST, LAST, 254), "an offset of 254 at a distance of 255 is assured");
    expect(assured(LAST, 1, LAST), "an offset of 255 at a distance of 255 is assured");
    expect(!assured(254, 1, LAST), "an offset of 255 at a distance of 254 is not");
}

/* From corner to corner, 510 hops: the last crossing has number 65,535. */
static void longest_drive(void) {
    uint32_t state = 7;
    struct bodkin_drove drove =
        bodkin_drive(list, SLOTS, 0, SIDE, SIDE, 0, 0, 0, LAST, LAST, labels, CROSSINGS, region,
                     CROSSINGS, route, BODKIN_ROUTE, &state);
    expect(drove.refusal == 0 && drove.length == 511 && route[0] == 0 && route[510] == 65535,
           "a drive of 511 crossings ends at number 65,535");
    struct bodkin_checked found = bodkin_check(list, SLOTS, 0, SIDE, SIDE, 0, 0, 0, LAST, LAST, labels,
                                               CROSSINGS, route, drove.length);
    expect(found.refusal == 0 && found.reason == BODKIN_ACCEPTED, "it is accepted");
    struct bodkin_homeward hop =
        bodkin_hop(list, SLOTS, 0, SIDE, SIDE, 0, 0, 0, LAST, LAST, labels, CROSSINGS);
    expect(hop.hops == 2 && hop.x == 254 && hop.y == LAST && hop.a == LAST && hop.b == 254,
           "two hops homeward from (255,255)");
}

/* Rocks that close all but the last column and row, which meet at number 65,535. */
static void last_lines(void) {
    for (size_t i = 0; i < LAST; i++) list[i] = one((uint16_t)(i + 1), i, i);
    struct bodkin_crossing_lines lines =
        bodkin_lines(list, SLOTS, LAST, SIDE, SIDE, 0, 0, LAST, LAST, 0, labels, CROSSINGS);
    expect(lines.refusal == 0 && lines.yes && lines.column == LAST && lines.row == LAST,
           "column 255 and row 255 are the only crossing lines");
    uint32_t state = 7;
    struct bodkin_drove drove =
        bodkin_lines_drive(list, SLOTS, LAST, SIDE, SIDE, 0, 0, LAST, LAST, 0, labels, CROSSINGS,
                           region, CROSSINGS, route, BODKIN_ROUTE, &state);
    expect(drove.refusal == 0 && drove.length == 511 && route[0] == 65280 && route[255] == 65535
               && route[510] == 255 && state == 0xe7f46a4d,
           "the drive by way of them: 511 crossings, by number 65,535, with 510 draws");
    drove = bodkin_lines_drive(list, SLOTS, LAST, SIDE, SIDE, 0, 0, LAST, LAST, 0, labels, CROSSINGS,
                               region, CROSSINGS, route, BODKIN_ROUTE - 1, &state);
    expect(drove.refusal == BODKIN_SHORT_ROUTE && region[CROSSINGS - 1] == 1 && region[0] == 0,
           "into 510 slots: refused 10, the region is there");
}

/* Number 65,535 is the last crossing of the largest map, and none of a map with a row less. */
static void last_number(void) {
    const uint16_t into[2] = {65534, 65535}, off[2] = {65278, 65535};
    list[0] = one(1, LAST, LAST);
    struct bodkin_checked found = bodkin_check(list, SLOTS, 1, SIDE, SIDE, 0, 254, LAST, LAST, 254,
                                               labels, CROSSINGS, into, 2);
    expect(found.refusal == 0 && found.reason == BODKIN_IS_CLOSED && found.position == 1,
           "number 65,535 with a rock is closed");
    found = bodkin_check(list, SLOTS, 0, SIDE, LAST, 0, 254, 254, LAST, 254, labels, CROSSINGS - SIDE,
                         off, 2);
    expect(found.refusal == 0 && found.reason == BODKIN_OFF_THE_MAP && found.position == 1,
           "on a map of 255 rows it is off the map");
}

/* So many markers, each on a crossing of its own, with ids that rise by 1 up to the last. */
static void fill(size_t count, uint16_t last) {
    for (size_t i = 0; i < SLOTS; i++)
        list[i] = one(i < count ? (uint16_t)(last + 1 + i - count) : 7, i % SIDE, i / SIDE);
    memcpy(before, list, sizeof list);
}

static bool unchanged(void) { return memcmp(before, list, sizeof list) == 0; }

static void most_markers(void) {
    const size_t most = BODKIN_MARKERS;
    fill(most, 65535);
    struct bodkin_labelling r = bodkin_label(list, SLOTS, most, SIDE, SIDE, 0, labels, CROSSINGS);
    expect(r.refusal == 0 && r.rocks == most && r.shut == 0 && r.groups == 1,
           "8,192 markers with ids up to 65,535: 32 rows of rocks, one group");
    struct bodkin_counted counted = bodkin_enter(list, SLOTS, most, SIDE, SIDE, 1, 0, 0, BODKIN_TALLEST);
    expect(counted.refusal == BODKIN_NO_SLOT && counted.count == 0 && unchanged(),
           "an 8,193rd marker: refused 7, though the list has slots");
    counted = bodkin_clear(list, SLOTS, most, SIDE, SIDE, 65535);
    expect(counted.refusal == 0 && counted.count == most - 1 && list[most - 1].id == 0,
           "id 65,535 is cleared");
    counted = bodkin_enter(list, most, most - 1, SIDE, SIDE, 65535, LAST, 31, BODKIN_TALLEST);
    expect(counted.refusal == 0 && counted.count == most && unchanged(),
           "and entered again, in the last slot of a list of 8,192");
    fill(most + 1, 65535);
    r = bodkin_label(list, SLOTS, most + 1, SIDE, SIDE, 0, labels, CROSSINGS);
    expect(r.refusal == BODKIN_BAD_LIST, "8,193 markers with rising ids: refused 3");
    counted = bodkin_clear(list, SLOTS, most + 1, SIDE, SIDE, 65535);
    expect(counted.refusal == BODKIN_BAD_LIST && unchanged(), "clearing among 8,193: refused 3");
}

/* A map of 256 by 256 with so many rocks, the first in raster order; packed, or digit by digit. */
static size_t make_file(bool packed, size_t rocks) {
    size_t n = HEADER;
    memcpy(file, packed ? "P4\n256 256\n" : "P1\n256 256\n", HEADER);
    for (size_t i = 0; i < CROSSINGS; i++)
        if (!packed)
            file[n++] = i < rocks ? '1' : '0';
        else if (i % 8 == 0)
            file[n++] = rocks >= i + 8 ? 0xFF : rocks <= i ? 0 : (uint8_t)(0xFF00u >> (rocks - i));
    return n;
}

/* Reads such a file into so many slots, with so many bytes after it or, below 0, cut off. */
static struct bodkin_read_map read_map(bool packed, size_t rocks, size_t slots, int more) {
    size_t n = make_file(packed, rocks) + (size_t)more;
    fill(0, 0);
    return bodkin_read(file, n, list, slots);
}

/* Refused by this number, with a list that stays. */
static bool refused(struct bodkin_read_map map, uint8_t number) {
    return map.refusal == number && map.width == 0 && map.height == 0 && map.count == 0
           && unchanged();
}

static void largest_files(void) {
    const size_t most = BODKIN_MARKERS;
    for (int packed = 0; packed < 2; packed++) {
        struct bodkin_read_map map = read_map(packed, most, most, 0);
        struct bodkin_marker last = list[most - 1];
        expect(map.refusal == 0 && map.width == SIDE && map.height == SIDE && map.count == most
                   && last.id == most && last.x == LAST && last.y == 224,
               packed ? "P4: 8,192 rocks into 8,192 slots" : "P1: 8,192 rocks into 8,192 slots");
        expect(refused(read_map(packed, most + 1, most, 0), BODKIN_NO_SLOT),
               "8,193 rocks into 8,192 slots: refused 7, no slot changes");
        expect(refused(read_map(packed, most + 1, SLOTS, 0), BODKIN_NO_SLOT),
               "8,193 rocks into 65,536 slots: refused 7 too");
        expect(refused(read_map(packed, CROSSINGS, most, 0), BODKIN_NO_SLOT),
               "65,536 rocks into 8,192 slots: refused 7");
        expect(refused(read_map(packed, CROSSINGS, SLOTS, 0), BODKIN_NO_SLOT),
               "65,536 rocks into 65,536 slots: refused 7");
        expect(refused(read_map(packed, CROSSINGS, most, -1), BODKIN_SHORT_RASTER),
               "65,536 rocks and the raster short by a byte: refused 14");
    }
    for (int packed = 0; packed < 2; packed++) {
        file[HEADER + CROSSINGS] = 'x';
        expect(refused(read_map(packed, CROSSINGS, most, 1), BODKIN_LONG_RASTER),
               "65,536 rocks and a byte after the raster: refused 15");
    }
    size_t n = make_file(false, CROSSINGS);
    fill(0, 0);
    file[n - 1] = '2';
    expect(refused(bodkin_read(file, n, list, most), BODKIN_BAD_HEADER),
           "65,535 rocks and a foreign byte for the last digit: refused 13");
    file[n - 1] = '0';
    expect(refused(bodkin_read(file, n, list, most), BODKIN_NO_SLOT),
           "65,535 rocks and a 0 for the last digit: refused 7");
    read_map(true, most, most, 0);
    struct bodkin_wrote_map wrote = bodkin_write(list, most, most, SIDE, SIDE, 0, out, sizeof out);
    expect(wrote.refusal == 0 && wrote.bytes == BODKIN_FILE && memcmp(out, file, BODKIN_FILE) == 0,
           "8,192 rocks written again: the same bytes");
}

int main(void) {
    sizes();
    last_marker();
    along_a_row();
    along_a_wall();
    longest_distances();
    longest_offsets();
    longest_drive();
    last_lines();
    last_number();
    most_markers();
    largest_files();
    return verdict("tests/c/limits");
}
