/*
 * The crossing-lines test and the drive by way of where the lines meet, in C: rows for both tests,
 * the refusals in their order, and what they leave in lent memory. Map 8 by 8.
 */
#include <string.h>

#include "check.h"
#include "grainbodkin.h"

enum { SIDE = 8, SHEET = SIDE * SIDE, ROUTE = 2 * SIDE, ROCKS = 3 };

static uint8_t labels[SHEET], region[SHEET];
static uint16_t route[ROUTE];
static uint32_t state;

struct row {
    const char *what;
    size_t rocks;
    struct bodkin_marker list[ROCKS];
    size_t s[2], d[2];
    bool yes;
    size_t column, row;
    bool assured; /* home s, place d */
};

static const struct row rows[] = {
    {"no rocks", 0, {{0}}, {0, 0}, {2, 1}, true, 0, 0, true},
    {"from a crossing to itself", 0, {{0}}, {3, 1}, {3, 1}, true, 3, 1, true},
    {"west and south", 0, {{0}}, {2, 1}, {0, 0}, true, 0, 0, true},
    {"lines, and not assured", 1, {{1, 1, 0, 1}}, {0, 0}, {2, 1}, true, 0, 1, false},
    {"assured, and no lines", 2, {{1, 0, 1, 1}, {2, 2, 0, 1}}, {0, 0}, {2, 1}, false, 0, 0, true},
    {"columns and no row", 2, {{1, 1, 0, 1}, {2, 1, 2, 1}}, {0, 0}, {2, 2}, false, 0, 0, false},
    {"rows and no column", 2, {{1, 0, 1, 1}, {2, 2, 1, 1}}, {0, 0}, {2, 2}, false, 0, 0, false},
    {"a rock between", 1, {{1, 1, 0, 1}}, {0, 0}, {2, 0}, false, 0, 0, false},
    {"a rock outside the rectangle", 1, {{1, 5, 5, 1}}, {0, 0}, {4, 4}, true, 0, 0, true},
    {"a shut crossing in the row", 3, {{1, 3, 2, 1}, {2, 4, 3, 1}, {3, 5, 2, 1}}, {4, 0}, {4, 5}, false, 0, 0, false},
    {"beside R", 3, {{1, 3, 2, 1}, {2, 4, 3, 1}, {3, 5, 2, 1}}, {0, 2}, {7, 4}, true, 0, 4, false},
};

static struct bodkin_crossing_lines ask(const struct row *row) {
    memset(labels, 9, sizeof labels);
    return bodkin_lines(row->list, ROCKS, row->rocks, SIDE, SIDE, 0, row->s[0], row->s[1], row->d[0], row->d[1], labels, SHEET);
}

static struct bodkin_drove drive(const struct row *row, size_t slots) {
    memset(labels, 9, sizeof labels);
    memset(region, 9, sizeof region);
    for (size_t i = 0; i < ROUTE; i++) route[i] = 999;
    state = 7;
    return bodkin_lines_drive(row->list, ROCKS, row->rocks, SIDE, SIDE, 0, row->s[0], row->s[1], row->d[0], row->d[1], labels, SHEET, region, SHEET,
                              route, slots, &state);
}

static bool holds(const uint8_t *sheet, uint8_t byte) { return memchr(sheet, byte, SHEET) != NULL; }

static bool all(const uint8_t *sheet, uint8_t byte) {
    for (size_t i = 0; i < SHEET; i++)
        if (sheet[i] != byte) return false;
    return true;
}

/* Route and state are as they were lent. */
static bool unmoved(void) {
    for (size_t i = 0; i < ROUTE; i++)
        if (route[i] != 999) return false;
    return state == 7;
}

static void each_row(void) {
    for (size_t i = 0; i < sizeof rows / sizeof *rows; i++) {
        const struct row *row = &rows[i];
        struct bodkin_crossing_lines lines = ask(row);
        bool same = lines.yes == row->yes && lines.column == row->column && lines.row == row->row;
        expect(lines.refusal == BODKIN_DONE && same && !holds(labels, 9), row->what);
        struct bodkin_assurance assurance = bodkin_assured(row->list, ROCKS, row->rocks, SIDE, SIDE, 0, row->s[0], row->s[1], row->d[0], row->d[1],
                                                           labels, SHEET);
        expect(assurance.refusal == BODKIN_DONE && assurance.assured == row->assured, row->what);
    }
}

/*
 * The drive of each row: refused 19 where the test says no, accepted by the check where it says
 * yes, through the meeting crossing once.
 */
static void each_drive(void) {
    for (size_t i = 0; i < sizeof rows / sizeof *rows; i++) {
        const struct row *row = &rows[i];
        struct bodkin_drove drove = drive(row, ROUTE);
        if (!row->yes) {
            expect(drove.refusal == BODKIN_NO_LINES && !drove.length && all(region, 9) && unmoved() && !holds(labels, 9), row->what);
            continue;
        }
        struct bodkin_checked found = bodkin_check(row->list, ROCKS, row->rocks, SIDE, SIDE, 0, row->s[0], row->s[1], row->d[0], row->d[1], labels, SHEET,
                                                   route, drove.length);
        size_t met = 0;
        for (size_t j = 0; j < drove.length; j++) met += route[j] == row->row * SIDE + row->column;
        expect(drove.refusal == BODKIN_DONE && !found.refusal && !found.reason && met == 1 && route[drove.length] == 999, row->what);
        uint8_t whole[SHEET];
        uint8_t refusal = bodkin_region(row->list, ROCKS, row->rocks, SIDE, SIDE, 0, row->s[0], row->s[1], row->d[0], row->d[1], labels, SHEET, whole, SHEET);
        expect(!refusal && memcmp(region, whole, SHEET) == 0, "the region sheet holds the region of s and d");
    }
}

static void refusals(void) {
    struct row row = {"R", 3, {{1, 3, 2, 1}, {2, 4, 3, 1}, {3, 5, 2, 1}}, {0, 2}, {7, 2}, false, 0, 0, false};
    struct bodkin_drove drove = drive(&row, 0);
    expect(drove.refusal == BODKIN_NO_LINES && all(region, 9) && unmoved() && !holds(labels, 9), "no lines and a short route: refused 19");
    row.d[1] = 4;
    drove = drive(&row, 9);
    expect(drove.refusal == BODKIN_SHORT_ROUTE && holds(region, 1) && !holds(region, 9) && unmoved(), "one slot too few: refused 10, the region is there");
    expect(drive(&row, 10).length == 10, "just enough slots");
    row.d[0] = SIDE;
    drove = drive(&row, ROUTE);
    expect(drove.refusal == BODKIN_BAD_PLACE && all(labels, 9) && all(region, 9) && unmoved(), "d off the map: refused 4, nothing changed");
    expect(ask(&row).refusal == BODKIN_BAD_PLACE && all(labels, 9), "and so is the test");
    row.d[0] = 4;
    row.d[1] = 2;
    drove = drive(&row, 0);
    expect(drove.refusal == BODKIN_END_CLOSED && !holds(labels, 9) && all(region, 9) && unmoved(), "d closed: refused 8 before 19");
    struct bodkin_crossing_lines lines = ask(&row);
    expect(lines.refusal == BODKIN_END_CLOSED && !lines.yes && !lines.column && !lines.row && !holds(labels, 9), "and so is the test, with zeros");
    row.d[0] = 7;
    row.rocks = 4;
    expect(drive(&row, ROUTE).refusal == BODKIN_BAD_LIST && ask(&row).refusal == BODKIN_BAD_LIST && all(labels, 9), "a count over the list: refused 3");
    row.rocks = 3;
    lines = bodkin_lines(row.list, ROCKS, 3, SIDE, SIDE, 0, 0, 2, 7, 4, labels, SHEET - 1);
    expect(lines.refusal == BODKIN_BAD_SHEET && all(labels, 9), "a short label sheet: refused 2");
    lines = bodkin_lines(row.list, ROCKS, 3, 0, SIDE, 0, 0, 2, 7, 4, labels, SHEET);
    expect(lines.refusal == BODKIN_BAD_SIZE && all(labels, 9), "a width of 0: refused 1");
}

/* Without rocks the lines meet at s: the drive is document 01's, state and all. */
static void example(void) {
    uint32_t z = 0;
    struct bodkin_drove drove = bodkin_lines_drive(rows[0].list, ROCKS, 0, SIDE, SIDE, 0, 0, 0, 2, 1, labels, SHEET, region, SHEET, route, ROUTE, &z);
    expect(drove.length == 4 && route[0] == 0 && route[1] == 1 && route[2] == 2 && route[3] == 10 && z == 0xd1ccf6e9, "without rocks, example 11's drive");
    const struct bodkin_marker rock[1] = {{1, 1, 0, 1}};
    z = 5;
    drove = bodkin_lines_drive(rock, 1, 1, SIDE, SIDE, 0, 0, 0, 2, 1, labels, SHEET, region, SHEET, route, ROUTE, &z);
    expect(drove.length == 4 && route[0] == 0 && route[1] == 8 && route[2] == 9 && route[3] == 10 && z == 0x3e3a2bd2, "round a rock, with three draws thrown away");
}

int main(void) {
    each_row();
    each_drive();
    refusals();
    example();
    return verdict("tests/c/lines");
}
