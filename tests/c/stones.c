/*
 * Stones of different heights under carts of different clearance (document 02, request 08): whose
 * rocks they are in every asking and in writing, at heights one below, equal to and one above the
 * clearance; the higher of two cleared; heights that are read, entered and freed; a whole map
 * opened; and lists whose only fault is in a low marker. Map 8 by 8.
 */
#include <string.h>

#include "check.h"
#include "grainbodkin.h"

enum { SIDE = 8, SHEET = SIDE * SIDE, ROUTE = 2 * SIDE, SLOTS = SHEET, FILE_BYTES = 15, OLD = 9 };

static struct bodkin_marker list[SLOTS], before[SLOTS];
static size_t count;
static uint8_t labels[SHEET], region[SHEET], out[FILE_BYTES];
static uint16_t ways[4][SHEET], route[ROUTE];
static uint32_t state;

static void put(size_t x, size_t y, uint16_t height) {
    list[count] = (struct bodkin_marker){(uint16_t)(count + 1), (uint16_t)x, (uint16_t)y, height};
    count++;
}

static struct bodkin_labelling label(uint16_t clearance) {
    return bodkin_label(list, SLOTS, count, SIDE, SIDE, clearance, labels, SHEET);
}

/* The cart's rocks' crossings, shut crossings and groups are these. */
static bool has(uint16_t clearance, size_t rocks, size_t shut, size_t groups) {
    struct bodkin_labelling r = label(clearance);
    return r.refusal == 0 && r.rocks == rocks && r.shut == shut && r.groups == groups;
}

static uint8_t at(size_t x, size_t y) { return labels[y * SIDE + x]; }

/* "exactly if its height is greater than the clearance" */
static void equal_and_beside(void) {
    static const uint16_t heights[] = {1, 2, 30, 255, 256, 257, 0x7FFF, 0x8000, 0xFF00, 65534, 65535};
    bool below = true, equal = true, above = true;
    for (size_t i = 0; i < sizeof heights / sizeof *heights; i++) {
        uint16_t height = heights[i];
        count = 0;
        put(4, 4, height);
        below &= has((uint16_t)(height - 1), 1, 0, 1) && at(4, 4) == BODKIN_ROCK;
        equal &= has(height, 0, 0, 0) && at(4, 4) == BODKIN_OPEN;
        above &= height == BODKIN_TALLEST || has((uint16_t)(height + 1), 0, 0, 0);
    }
    expect(below, "a clearance one below the height: a rock");
    expect(equal, "a clearance equal to the height: open");
    expect(above, "a clearance one above the height: open");
    count = 0;
    put(4, 4, 0);
    put(6, 6, 1);
    expect(has(0, 1, 0, 1) && at(6, 6) == BODKIN_ROCK && at(4, 4) == BODKIN_OPEN, "a height of 0 stops no cart, one of 1 that of no clearance");
    count = 0;
    put(4, 4, BODKIN_TALLEST);
    expect(has(0, 1, 0, 1) && has(BODKIN_TALLEST - 1, 1, 0, 1), "a height of 65,535 stops every cart below it");
    expect(has(BODKIN_TALLEST, 0, 0, 0), "and not that of 65,535");
}

/* Two markers on one crossing, the higher first or last. */
static void two_on_one(void) {
    for (uint16_t higher = 1; higher <= 2; higher++) {
        count = 0;
        put(4, 4, higher == 1 ? 30 : 10);
        put(4, 4, higher == 1 ? 10 : 30);
        expect(has(20, 1, 0, 1) && has(29, 1, 0, 1) && has(30, 0, 0, 0), "of two on one crossing the higher decides");
        struct bodkin_counted cleared = bodkin_clear(list, SLOTS, count, SIDE, SIDE, higher);
        count = cleared.count;
        expect(cleared.refusal == 0 && count == 1 && has(20, 0, 0, 0) && has(9, 1, 0, 1), "the higher cleared, the other decides");
        static const struct bodkin_marker none = {0, 0, 0, 0};
        expect(memcmp(&list[1], &none, sizeof none) == 0, "the freed slot is zeros, its height too");
    }
}

/* Every height is entered, moved up with its marker and moved down again. */
static void entered(void) {
    static const uint16_t heights[] = {0, 1, 30, 65534, 65535};
    bool all = true;
    for (size_t i = 0; i < sizeof heights / sizeof *heights; i++) {
        count = 0;
        put(4, 4, 7);
        list[0].id = 9;
        struct bodkin_counted in = bodkin_enter(list, SLOTS, 1, SIDE, SIDE, 5, 2, 6, heights[i]);
        all &= in.refusal == 0 && in.count == 2 && list[0].id == 5 && list[0].height == heights[i] && list[1].id == 9 && list[1].height == 7;
        struct bodkin_counted off = bodkin_clear(list, SLOTS, 2, SIDE, SIDE, 5);
        all &= off.refusal == 0 && off.count == 1 && list[0].id == 9 && list[0].height == 7 && list[1].height == 0;
    }
    expect(all, "every height is entered, and the others keep theirs");
}

/* "the number of shut crossings, of groups ... may rise" with the clearance. */
static void more_shut(void) {
    count = 0;
    put(1, 1, 9);
    put(2, 1, 1);
    put(3, 1, 9);
    expect(has(0, 3, 0, 1) && at(2, 1) == BODKIN_ROCK, "heights 9, 1, 9 in a row: none shut at clearance 0");
    expect(has(5, 2, 1, 1) && at(2, 1) == BODKIN_SHUT, "and one at 5");
    expect(has(9, 0, 0, 0), "and all open at 9");
    count = 0;
    put(1, 1, 9);
    put(2, 1, 1);
    put(3, 1, 1);
    put(4, 1, 9);
    expect(has(0, 4, 0, 1) && has(5, 2, 0, 2), "heights 9, 1, 1, 9: one group at clearance 0, two at 5");
    count = 0;
    put(0, 0, 40);
    put(1, 1, 15);
    expect(has(14, 2, 2, 1) && has(15, 1, 0, 1), "what a low stone shuts is open for a cart that passes over it");
}

/*
 * Every asking of a cart of this clearance, from (0,0) to (7,0) or of (0,0). The bytes that differ
 * from those before are the answers: a row of numbers, the same only if every answer is.
 */
struct answers {
    size_t numbers[32], n;
};

static void note(struct answers *a, size_t number) { a->numbers[a->n++] = number; }

static struct answers all_askings(uint16_t clearance) {
    struct answers a = {{0}, 0};
    const uint16_t drawn[] = {0, 1, 2, 3, 4, 5, 6, 7};
    state = 7;
    struct bodkin_labelling l = label(clearance);
    note(&a, l.refusal), note(&a, l.rocks), note(&a, l.shut), note(&a, l.groups);
    struct bodkin_four f = bodkin_distances(list, SLOTS, count, SIDE, SIDE, clearance, 0, 0, labels, SHEET);
    note(&a, f.refusal), note(&a, f.four[0]);
    note(&a, bodkin_measure(list, SLOTS, count, SIDE, SIDE, clearance, labels, SHEET, ways[0], SHEET, ways[1], SHEET, ways[2], SHEET, ways[3], SHEET));
    note(&a, ways[0][0]), note(&a, ways[2][7]);
    struct bodkin_assurance s = bodkin_assured(list, SLOTS, count, SIDE, SIDE, clearance, 0, 0, 7, 0, labels, SHEET);
    note(&a, s.refusal), note(&a, s.assured);
    struct bodkin_homeward h = bodkin_hop(list, SLOTS, count, SIDE, SIDE, clearance, 0, 0, 7, 0, labels, SHEET);
    note(&a, h.refusal), note(&a, h.hops), note(&a, h.x);
    note(&a, bodkin_region(list, SLOTS, count, SIDE, SIDE, clearance, 0, 0, 7, 0, labels, SHEET, region, SHEET));
    note(&a, region[4]);
    struct bodkin_drove d = bodkin_drive(list, SLOTS, count, SIDE, SIDE, clearance, 0, 0, 7, 0, labels, SHEET, region, SHEET, route, ROUTE, &state);
    note(&a, d.refusal), note(&a, d.length);
    struct bodkin_checked c = bodkin_check(list, SLOTS, count, SIDE, SIDE, clearance, 0, 0, 7, 0, labels, SHEET, drawn, SIDE);
    note(&a, c.refusal), note(&a, c.reason), note(&a, c.position);
    struct bodkin_crossing_lines t = bodkin_lines(list, SLOTS, count, SIDE, SIDE, clearance, 0, 0, 7, 0, labels, SHEET);
    note(&a, t.refusal), note(&a, t.yes);
    d = bodkin_lines_drive(list, SLOTS, count, SIDE, SIDE, clearance, 0, 0, 7, 0, labels, SHEET, region, SHEET, route, ROUTE, &state);
    note(&a, d.refusal), note(&a, d.length);
    struct bodkin_wrote_map w = bodkin_write(list, SLOTS, count, SIDE, SIDE, clearance, out, FILE_BYTES);
    note(&a, w.refusal), note(&a, w.bytes), note(&a, out[FILE_BYTES - 1]);
    struct bodkin_swept p = bodkin_sweeps(list, SLOTS, count, SIDE, SIDE, clearance, labels, SHEET);
    note(&a, p.refusal), note(&a, p.sweeps), note(&a, labels[4]);
    return a;
}

static bool equal(struct answers a, struct answers b) { return a.n == b.n && memcmp(a.numbers, b.numbers, a.n * sizeof *a.numbers) == 0; }

/* One stone on row 0: with a clearance below its height every asking sees a rock, else none. */
static void every_asking(void) {
    static const size_t stopped[] = {0, 1, 0, 1, 0, 4, 0, 4, 3, 0, 0, 11, 0, 0, 9, 0, 9, 0, 0, BODKIN_IS_CLOSED, 4, 0, 0, 19, 0, 0, 15, 8, 0, 0, 1};
    static const size_t passed[] = {0, 0, 0, 0, 0, 65535, 0, 65535, 65535, 0, 1, 0, 1, 6, 0, 1, 0, 8, 0, 0, 0, 0, 1, 0, 8, 0, 15, 0, 0, 0, 0};
    struct answers rock = {{0}, sizeof stopped / sizeof *stopped}, none = {{0}, sizeof passed / sizeof *passed};
    memcpy(rock.numbers, stopped, sizeof stopped);
    memcpy(none.numbers, passed, sizeof passed);
    count = 0;
    put(4, 0, 20);
    expect(equal(all_askings(0), rock) && equal(all_askings(19), rock), "every asking, below the stone's height: a rock");
    expect(equal(all_askings(20), none) && equal(all_askings(21), none), "at the height and above: none");
    expect(equal(all_askings(BODKIN_TALLEST), none), "and with the greatest clearance");
    count = 0;
    expect(equal(all_askings(0), none), "as without the stone");
}

/* Closed crossings shrink as the clearance grows, step by step. */
static void shrinking(void) {
    bool shrinks = true;
    uint8_t lower[SHEET];
    count = 0;
    for (size_t i = 0; i < SHEET; i++)
        if (i % 3 != 1) put(i % SIDE, i / SIDE, (uint16_t)(i * 37 % 41));
    label(0);
    memcpy(lower, labels, SHEET);
    for (uint16_t clearance = 1; clearance <= 41; clearance++) {
        label(clearance);
        for (size_t i = 0; i < SHEET; i++) shrinks &= labels[i] == BODKIN_OPEN || lower[i] != BODKIN_OPEN;
        memcpy(lower, labels, SHEET);
    }
    expect(shrinks, "no crossing that a lower cart finds open is closed for a higher one");
}

/* "A clearance of 65,535 opens the whole map." */
static void whole_map_open(void) {
    count = 0;
    for (size_t i = 0; i < SHEET; i++) put(i % SIDE, i / SIDE, BODKIN_TALLEST);
    expect(has(BODKIN_TALLEST - 1, SHEET, 0, 1), "a full map: closed at 65,534");
    expect(has(BODKIN_TALLEST, 0, 0, 0), "and open at 65,535");
    bool all = true;
    for (size_t i = 0; i < SHEET; i++) all &= labels[i] == BODKIN_OPEN;
    expect(all, "every label is 0");
    struct answers a = all_askings(BODKIN_TALLEST);
    bool refused = false;
    for (size_t i = 0; i < a.n; i++) refused |= a.numbers[i] == BODKIN_END_CLOSED && i != 17 && i != 24;
    expect(!refused && a.numbers[17] == 8 && a.numbers[24] == 8, "no asking is refused 8, and the drives have eight crossings");
}

/* "16 looks at all markers, low ones included." */
static void shared(void) {
    static const uint16_t heights[][2] = {{0, 0}, {10, 30}, {30, 10}, {0, 65535}, {65535, 65535}};
    static const uint16_t clearances[] = {0, 20, 30, 65535};
    bool all = true;
    for (size_t i = 0; i < 5; i++)
        for (size_t j = 0; j < 4; j++) {
            count = 0;
            put(4, 4, heights[i][0]);
            put(4, 4, heights[i][1]);
            memset(out, OLD, sizeof out);
            struct bodkin_wrote_map w = bodkin_write(list, SLOTS, count, SIDE, SIDE, clearances[j], out, 0);
            all &= w.refusal == BODKIN_SHARED_CROSSING && w.bytes == 0 && out[0] == OLD;
        }
    expect(all, "two markers on one crossing: 16, whatever their heights and the clearance, before 17");
}

/* "Markers read from a map file get 65,535; writing a map takes a clearance." */
static void files(void) {
    static const uint8_t rows[][2] = {{4, 0xA8}, {5, 0x28}, {10, 0x08}, {15, 0}};
    bool right = true;
    for (size_t i = 0; i < 4; i++) {
        count = 0;
        put(0, 0, 5);
        put(2, 0, 10);
        put(4, 0, 15);
        struct bodkin_wrote_map w = bodkin_write(list, SLOTS, count, SIDE, SIDE, rows[i][0], out, FILE_BYTES);
        right &= w.refusal == 0 && w.bytes == FILE_BYTES && out[FILE_BYTES - 1] == rows[i][1];
        struct bodkin_read_map map = bodkin_read(out, FILE_BYTES, list, SLOTS);
        right &= map.refusal == 0 && map.count == 3 - i;
        for (size_t k = 0; k < map.count; k++) right &= list[k].height == BODKIN_TALLEST && list[k].y == 0 && list[k].x == 2 * (i + k);
    }
    expect(right, "a written map has the cart's rocks, and read they are 65,535 high");
}

/* A list whose only fault is in a low marker: 3 all the same, and nothing changes. */
static void low_faults(void) {
    static const struct bodkin_marker wrong[] = {{0, 1, 1, 0}, {5, 1, 1, 0}, {4, 1, 1, 0}, {6, SIDE, 1, 0}, {6, 1, SIDE, 0}, {6, 0xFFFF, 1, 0}};
    static const uint16_t clearances[] = {0, 1, 65535};
    bool all = true;
    for (size_t i = 0; i < sizeof wrong / sizeof *wrong; i++)
        for (size_t j = 0; j < 3; j++) {
            count = 0;
            put(3, 3, 30);
            list[0].id = 5;
            list[count++] = wrong[i];
            memcpy(before, list, sizeof list);
            memset(labels, OLD, sizeof labels);
            struct answers a = all_askings(clearances[j]);
            for (size_t k = 0; k < SHEET; k++) all &= labels[k] == OLD;
            static const size_t refusals[] = {0, 4, 6, 9, 11, 14, 16, 18, 21, 23, 25, 28};
            for (size_t k = 0; k < sizeof refusals / sizeof *refusals; k++) all &= a.numbers[refusals[k]] == BODKIN_BAD_LIST;
            all &= bodkin_enter(list, SLOTS, count, SIDE, SIDE, 9, 0, 0, 1).refusal == BODKIN_BAD_LIST;
            all &= bodkin_clear(list, SLOTS, count, SIDE, SIDE, 5).refusal == BODKIN_BAD_LIST;
            all &= memcmp(before, list, sizeof list) == 0;
        }
    expect(all, "an id 0, equal or falling, or a place off the map, of a low marker: refused 3 by every call");
}

int main(void) {
    equal_and_beside();
    two_on_one();
    entered();
    more_shut();
    every_asking();
    shrinking();
    whole_map_open();
    shared();
    files();
    low_faults();
    return verdict("tests/c/stones");
}
