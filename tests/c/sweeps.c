/*
 * How many sweeps the labelling takes, in C (document 02, request 10): maps drawn with their
 * labels and counted by hand; every map of 4 by 4 and of 5 by 3 against whole sweeps of the map;
 * the largest maps; carts; and the refusals, which leave all lent memory as it was.
 */
#include <string.h>

#include "check.h"
#include "grainbodkin.h"

enum { SIDE = BODKIN_SIDE, LAST = SIDE - 1, CROSSINGS = BODKIN_CROSSINGS, SLOTS = BODKIN_MARKERS + 1, OLD = 9 };

static struct bodkin_marker list[SLOTS], before[SLOTS];
static size_t count;
static uint8_t labels[CROSSINGS + 1], labelled[CROSSINGS];

static void put(size_t x, size_t y, uint16_t height) {
    list[count] = (struct bodkin_marker){(uint16_t)(count + 1), (uint16_t)x, (uint16_t)y, height};
    count++;
}

/* The sheet holds this byte before the call: any that a label is, and others. */
static struct bodkin_swept ask(size_t width, size_t height, uint16_t clearance, uint8_t byte) {
    memset(labels, byte, width * height + 1);
    return bodkin_sweeps(list, SLOTS, count, width, height, clearance, labels, width * height);
}

/*
 * The call tells this number over the list, whatever the sheet held, and leaves the sheet that
 * labelling leaves; and the number is at most that of the shut crossings, and 0 exactly if there
 * are none.
 */
static bool takes(size_t width, size_t height, uint16_t clearance, size_t sweeps) {
    struct bodkin_labelling numbers = bodkin_label(list, SLOTS, count, width, height, clearance, labelled, width * height);
    bool right = numbers.refusal == 0 && sweeps <= numbers.shut && (sweeps == 0) == (numbers.shut == 0);
    for (uint8_t byte = 0; byte < 5; byte++) {
        struct bodkin_swept swept = ask(width, height, clearance, byte);
        right &= swept.refusal == 0 && swept.sweeps == sweeps && memcmp(labels, labelled, width * height) == 0;
        right &= labels[width * height] == byte;
    }
    return right;
}

static size_t shut(void) {
    size_t n = 0;
    for (size_t i = 0; i < CROSSINGS; i++) n += labelled[i] == BODKIN_SHUT;
    return n;
}

/* A map with its labels, rows from the north, and the sweeps that it takes. */
static const struct row {
    const char *what, *drawn;
    size_t width, height, sweeps;
} rows[] = {
    {"no rocks", ".........", 3, 3, 0},
    {"one rock", "....#....", 3, 3, 0},
    {"a full map", "######", 3, 2, 0},
    {"the smallest map", "#", 1, 1, 0},
    {"a lattice with gaps of two", "#..#........#..#", 4, 4, 0},
    {"a gap of one", "#o#", 3, 1, 1},
    {"the rocks called R", "o#o#o#", 3, 2, 1},
    {"two rocks corner to corner", "o##o", 2, 2, 1},
    {"the diagonal", "#ooo" "o#oo" "oo#o" "ooo#", 4, 4, 3},
    {"a front along a wall, with the numbers: as many sweeps as shut crossings", "#ooo" "####", 4, 2, 3},
    {"the same against the numbers", "####" "ooo#", 4, 2, 3},
    {"two fronts that meet", "#ooo#" "#####", 5, 2, 2},
    {"a front that turns: as many sweeps as shut crossings", "#o." "oo." "##.", 3, 3, 3},
    {"a front of two rows behind a gap", "#oo" "ooo" "###", 3, 3, 4},
};

static void each_row(void) {
    for (size_t i = 0; i < sizeof rows / sizeof *rows; i++) {
        const struct row *row = &rows[i];
        bool drawn = true;
        count = 0;
        for (size_t y = row->height; y-- > 0;)
            for (size_t x = 0; x < row->width; x++)
                if (row->drawn[(row->height - 1 - y) * row->width + x] == '#') put(x, y, BODKIN_TALLEST);
        bool right = takes(row->width, row->height, 0, row->sweeps);
        for (size_t y = 0; y < row->height; y++)
            for (size_t x = 0; x < row->width; x++)
                drawn &= ".#o"[labels[y * row->width + x]] == row->drawn[(row->height - 1 - y) * row->width + x];
        expect(right && drawn, row->what);
    }
}

/* How many neighbours of a crossing are closed in a state: bit y * width + x of it. */
static unsigned beside(unsigned state, size_t width, size_t height, size_t x, size_t y) {
    size_t at = y * width + x;
    unsigned west = x > 0 ? state >> (at - 1) & 1 : 0, east = x < width - 1 ? state >> (at + 1) & 1 : 0;
    unsigned south = y > 0 ? state >> (at - width) & 1 : 0, north = y < height - 1 ? state >> (at + width) & 1 : 0;
    return west + east + south + north;
}

/* "all crossings are judged together on the state before it" */
static unsigned sweep(unsigned state, size_t width, size_t height) {
    unsigned after = state;
    for (size_t y = 0; y < height; y++)
        for (size_t x = 0; x < width; x++)
            if (beside(state, width, height, x, y) >= 2) after |= 1u << (y * width + x);
    return after;
}

/* Every map of a size, against sweeps of the whole map; how many take as many as they have shut. */
static void every_map(size_t width, size_t height, const char *what) {
    bool all = true;
    size_t equal = 0, less = 0;
    for (unsigned rocks = 0; rocks < 1u << (width * height); rocks++) {
        unsigned state = rocks, next;
        size_t sweeps = 0, closed = 0;
        count = 0;
        for (size_t i = 0; i < width * height; i++)
            if (rocks >> i & 1) put(i % width, i / width, 1);
        while ((next = sweep(state, width, height)) != state) state = next, sweeps++;
        struct bodkin_swept swept = ask(width, height, 0, OLD);
        all &= swept.refusal == 0 && swept.sweeps == sweeps;
        for (size_t i = 0; i < width * height; i++) {
            all &= labels[i] == (rocks >> i & 1 ? BODKIN_ROCK : state >> i & 1 ? BODKIN_SHUT : BODKIN_OPEN);
            closed += state >> i & 1;
        }
        equal += sweeps > 0 && sweeps == closed - count;
        less += sweeps < closed - count;
    }
    expect(all && equal > 0 && less > 0, what);
}

/* The largest maps, with as many rocks as a list may hold and with few. */
static void largest(void) {
    count = 0;
    expect(takes(SIDE, SIDE, 0, 0), "256 by 256, no rocks: 0");
    put(LAST, LAST, 1);
    expect(takes(SIDE, SIDE, 0, 0), "one rock: 0");
    count = 0;
    for (size_t i = 0; i < SIDE; i++) put(i, i, 1);
    expect(takes(SIDE, SIDE, 0, LAST) && shut() == CROSSINGS - SIDE, "the diagonal: 255, and 65,280 shut");
    count = 0;
    for (size_t i = 0; i < SIDE; i++) put(i, LAST - i, 1);
    expect(takes(SIDE, SIDE, 0, LAST), "the other diagonal: 255");
    count = 0;
    for (size_t i = 0; i < BODKIN_MARKERS; i++) put(i % SIDE, i / SIDE, 1);
    expect(takes(SIDE, SIDE, 0, 0), "8,192 rocks, the southern rows full: 0");
    expect(takes(SIDE, BODKIN_MARKERS / SIDE, 0, 0), "and the map full: 0");
    count = 0;
    for (size_t y = 0; y < SIDE; y += 3)
        for (size_t x = 0; x < SIDE; x += 3) put(x, y, 1);
    expect(takes(SIDE, SIDE, 0, 0), "a lattice with gaps of two: 0");
    count = 0;
    for (size_t y = 0; y < SIDE; y++) put(7, y, 1);
    put(8, 0, 1);
    expect(takes(SIDE, SIDE, 0, LAST) && shut() == LAST, "a wall and a rock beside its end: 255, and 255 shut");
    count = 0;
    for (size_t y = 0; y < SIDE; y++) put(0, y, 1);
    for (size_t x = 1; x < SIDE; x += 3) put(x, 0, 1);
    for (size_t x = 3; x < SIDE; x += 3) put(x, LAST, 1);
    expect(takes(SIDE, SIDE, 0, 43436) && shut() == 65110, "fronts to the north and to the south by turns: 43,436, and 65,110 shut");
    count = 0;
    for (size_t i = 0; i < SIDE / 2; i++) put(2 * i, 0, 1);
    expect(takes(SIDE, 1, 0, 1), "256 by 1, gaps of one: 1");
    count = 0;
    for (size_t i = 0; i < SIDE / 2; i++) put(0, 2 * i, 1);
    expect(takes(1, SIDE, 0, 1), "1 by 256, gaps of one: 1");
    count = 0;
    put(0, 0, 1);
    for (size_t i = 1; i < SIDE; i++) put(0, i, 1), put(i, 0, 1);
    expect(takes(SIDE, SIDE, 0, 2 * LAST - 1) && shut() == LAST * LAST, "two walls that meet: 509, and 65,025 shut");
}

/* "Demands 2 and 3 then speak of one cart's rocks throughout": so does the number. */
static void carts(void) {
    count = 0;
    for (size_t x = 0; x < 8; x++) put(x, 0, 40);
    put(0, 1, 20);
    put(7, 1, 10);
    expect(takes(8, 8, 9, 3), "two fronts that meet, for a low cart: 3");
    expect(takes(8, 8, 10, 7), "one of their stones passed over: 7");
    expect(takes(8, 8, 20, 0), "both: 0");
    expect(takes(8, 8, BODKIN_TALLEST, 0), "the greatest clearance: 0");
    put(0, 1, 30);
    expect(takes(8, 8, 20, 7), "a higher stone on a lower one's crossing: 7");
}

/* The call is refused so, tells no number, and changes nothing that is lent. */
static void refused(uint8_t number, size_t lent, size_t in_use, size_t width, size_t height, size_t length, const char *what) {
    memcpy(before, list, sizeof list);
    memset(labels, OLD, sizeof labels);
    struct bodkin_swept swept = bodkin_sweeps(list, lent, in_use, width, height, 0, labels, length);
    bool same = memcmp(before, list, sizeof list) == 0;
    for (size_t i = 0; i < sizeof labels; i++) same &= labels[i] == OLD;
    expect(swept.refusal == number && swept.sweeps == 0 && same, what);
}

static void refusals(void) {
    memset(list, 0xA5, sizeof list);
    count = 0;
    for (size_t i = 0; i < 8; i++) put(i, i, 1);
    refused(BODKIN_BAD_SIZE, SLOTS, SLOTS + 1, 0, 8, 63, "a width of 0: refused 1, before 2 and 3");
    refused(BODKIN_BAD_SIZE, SLOTS, count, SIDE + 1, 8, 64, "a width of 257: refused 1");
    refused(BODKIN_BAD_SIZE, SLOTS, count, 8, SIZE_MAX, 64, "the largest height: refused 1");
    refused(BODKIN_BAD_SHEET, SLOTS, SLOTS + 1, 8, 8, 63, "a sheet one byte short: refused 2, before 3");
    refused(BODKIN_BAD_SHEET, SLOTS, count, 8, 8, 65, "a sheet one byte long: refused 2");
    refused(BODKIN_BAD_SHEET, SLOTS, count, 8, 8, 0, "a sheet of no bytes: refused 2");
    refused(BODKIN_BAD_LIST, 7, count, 8, 8, 64, "a count over the list: refused 3");
    refused(BODKIN_BAD_LIST, SLOTS, BODKIN_MARKERS + 1, 8, 8, 64, "a count over 8,192: refused 3");
    refused(BODKIN_BAD_LIST, SLOTS, count, 7, 9, 63, "a marker off the map: refused 3");
    list[3].id = list[2].id;
    refused(BODKIN_BAD_LIST, SLOTS, count, 8, 8, 64, "ids not rising: refused 3");
    list[3].id = 4, list[0].id = 0;
    refused(BODKIN_BAD_LIST, SLOTS, count, 8, 8, 64, "an id 0: refused 3");
    list[0].id = 1;
    expect(takes(8, 8, 0, 7), "and mended, with noise in the slots past the count: 7");
}

int main(void) {
    each_row();
    every_map(4, 4, "every map of 4 by 4, as whole sweeps have it");
    every_map(5, 3, "every map of 5 by 3");
    largest();
    carts();
    refusals();
    return verdict("tests/c/sweeps");
}
