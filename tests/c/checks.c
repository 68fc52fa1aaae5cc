/*
 * The check of a drawn list, in C: a list for each reason and for the ends of their ranges, the
 * refusals in their places, and what they leave in the label sheet. Map 8 by 8; R is the rocks
 * (3,2), (4,3), (5,2).
 */
#include <stdlib.h>
#include <string.h>

#include "check.h"
#include "grainbodkin.h"

enum { SIDE = 8, SHEET = SIDE * SIDE, LONG = 1000000 };

static struct bodkin_marker r[3] = {{1, 3, 2, 9}, {2, 4, 3, 9}, {3, 5, 2, 9}};
static uint8_t labels[SHEET];

struct row {
    const char *what;
    size_t rocks; /* 0 or 3, those of R */
    size_t s[2], d[2];
    size_t length;
    uint16_t drawn[10];
    uint8_t reason;
    size_t position;
};

static const struct row rows[] = {
    {"a drive of three hops", 0, {0, 0}, {2, 1}, 4, {0, 1, 2, 10}, BODKIN_ACCEPTED, 0},
    {"west and south", 0, {2, 1}, {0, 0}, 4, {10, 9, 1, 0}, BODKIN_ACCEPTED, 0},
    {"from a crossing to itself", 0, {3, 1}, {3, 1}, 1, {11}, BODKIN_ACCEPTED, 0},
    {"round R", 3, {0, 2}, {7, 4}, 10, {16, 24, 32, 33, 34, 35, 36, 37, 38, 39}, BODKIN_ACCEPTED, 0},
    {"another start", 0, {0, 0}, {2, 1}, 3, {1, 2, 10}, BODKIN_WRONG_START, 0},
    {"a start off the map", 0, {0, 0}, {2, 1}, 1, {64}, BODKIN_WRONG_START, 0},
    {"the first number off the map", 0, {7, 6}, {7, 7}, 2, {55, 64}, BODKIN_OFF_THE_MAP, 1},
    {"the last of sixteen bits", 0, {0, 0}, {2, 1}, 3, {0, 1, 65535}, BODKIN_OFF_THE_MAP, 2},
    {"a rock", 3, {2, 2}, {6, 2}, 2, {18, 19}, BODKIN_IS_CLOSED, 1},
    {"a shut crossing", 3, {4, 0}, {4, 5}, 3, {4, 12, 20}, BODKIN_IS_CLOSED, 2},
    {"a rock that is no neighbour", 3, {0, 0}, {7, 3}, 2, {0, 19}, BODKIN_IS_CLOSED, 1},
    {"a step of two", 0, {0, 0}, {2, 1}, 3, {0, 2, 10}, BODKIN_NOT_A_NEIGHBOUR, 1},
    {"a rest", 0, {0, 0}, {2, 1}, 2, {0, 0}, BODKIN_NOT_A_NEIGHBOUR, 1},
    {"round the east edge", 0, {7, 0}, {0, 1}, 2, {7, 8}, BODKIN_NOT_A_NEIGHBOUR, 1},
    {"round the west edge", 0, {0, 1}, {7, 0}, 2, {8, 7}, BODKIN_NOT_A_NEIGHBOUR, 1},
    {"two back", 0, {2, 0}, {4, 0}, 2, {2, 0}, BODKIN_NOT_A_NEIGHBOUR, 1},
    {"aside", 0, {0, 0}, {2, 0}, 3, {0, 8, 9}, BODKIN_NOT_NEARER, 1},
    {"back and forth", 0, {0, 0}, {2, 1}, 4, {0, 1, 0, 1}, BODKIN_NOT_NEARER, 2},
    {"nothing drawn", 0, {0, 0}, {2, 1}, 0, {0}, BODKIN_ENDED_EARLY, 0},
    {"one hop short", 0, {0, 0}, {2, 1}, 3, {0, 1, 2}, BODKIN_ENDED_EARLY, 3},
    {"on after d", 0, {0, 0}, {2, 1}, 5, {0, 1, 2, 10, 11}, BODKIN_WENT_ON, 4},
    {"d again", 0, {3, 1}, {3, 1}, 2, {11, 11}, BODKIN_WENT_ON, 1},
    {"off the map after d", 0, {3, 1}, {3, 1}, 2, {11, 65535}, BODKIN_WENT_ON, 1},
};

static struct bodkin_checked ask(size_t rocks, const size_t s[2], const size_t d[2], const uint16_t *drawn, size_t length) {
    memset(labels, 9, sizeof labels);
    return bodkin_check(r, 3, rocks, SIDE, SIDE, 0, s[0], s[1], d[0], d[1], labels, SHEET, drawn, length);
}

/* Every byte of the label sheet is a label, or none is touched. */
static bool labelled(size_t rocks) {
    return labels[2 * SIDE + 3] == (rocks ? BODKIN_ROCK : BODKIN_OPEN) && labels[2 * SIDE + 4] == (rocks ? BODKIN_SHUT : BODKIN_OPEN)
           && labels[0] == BODKIN_OPEN && !memchr(labels, 9, sizeof labels);
}

static bool untouched(void) {
    for (size_t i = 0; i < SHEET; i++)
        if (labels[i] != 9) return false;
    return true;
}

static void each_row(void) {
    for (size_t i = 0; i < sizeof rows / sizeof *rows; i++) {
        const struct row *row = &rows[i];
        struct bodkin_checked found = ask(row->rocks, row->s, row->d, row->drawn, row->length);
        expect(found.refusal == BODKIN_DONE && found.reason == row->reason && found.position == row->position && labelled(row->rocks), row->what);
    }
}

static void refusals(void) {
    const size_t s[2] = {0, 2}, d[2] = {7, 4}, off[2] = {SIDE, 0}, shut[2] = {4, 2};
    const uint16_t drawn[1] = {16};
    struct bodkin_checked found = ask(3, off, d, drawn, 1);
    expect(found.refusal == BODKIN_BAD_PLACE && !found.reason && !found.position && untouched(), "s off the map: refused 4, nothing changed");
    found = ask(3, s, off, drawn, 1);
    expect(found.refusal == BODKIN_BAD_PLACE && untouched(), "d off the map: refused 4");
    found = ask(3, shut, d, drawn, 0);
    expect(found.refusal == BODKIN_END_CLOSED && !found.reason && !found.position && labelled(3), "s closed: refused 8 before the list is looked at");
    found = ask(3, s, shut, drawn, 1);
    expect(found.refusal == BODKIN_END_CLOSED && labelled(3), "d closed: refused 8, the label sheet holds the labels");
    found = ask(4, s, d, drawn, 1);
    expect(found.refusal == BODKIN_BAD_LIST && untouched(), "a count over the list lent: refused 3");
    found = bodkin_check(r, 3, 3, SIDE, SIDE, 0, 0, 2, 7, 4, labels, SHEET - 1, drawn, 1);
    expect(found.refusal == BODKIN_BAD_SHEET && untouched(), "a short label sheet: refused 2");
    found = bodkin_check(r, 3, 3, 0, SIDE, 0, 0, 2, 7, 4, labels, SHEET, drawn, 1);
    expect(found.refusal == BODKIN_BAD_SIZE && untouched(), "a width of 0: refused 1");
    const size_t east[2] = {7, 2};
    found = ask(3, s, east, drawn, 1);
    expect(found.refusal == BODKIN_DONE && found.reason == BODKIN_ENDED_EARLY && found.position == 1, "9 is not given where there is no shortest drive");
}

/* The drives of the layer itself, from many states. */
static void own_drives(void) {
    const size_t s[2] = {0, 2}, d[2] = {7, 4};
    uint8_t region[SHEET];
    uint16_t route[2 * SIDE];
    bool all = true;
    for (uint32_t z = 0; z < 1000; z++) {
        uint32_t state = z;
        struct bodkin_drove drove = bodkin_drive(r, 3, 3, SIDE, SIDE, 0, s[0], s[1], d[0], d[1], labels, SHEET, region, SHEET, route, 2 * SIDE, &state);
        struct bodkin_checked found = ask(3, s, d, route, drove.length);
        all = all && drove.length == 10 && !found.refusal && !found.reason && !found.position;
    }
    expect(all, "every drive that the layer makes is accepted");
}

static void long_list(void) {
    const size_t s[2] = {0, 0}, d[2] = {7, 7};
    uint16_t *drawn = calloc(LONG, sizeof *drawn);
    if (!drawn) return expect(false, "room for a million numbers");
    struct bodkin_checked found = ask(0, s, d, drawn, LONG);
    expect(found.reason == BODKIN_NOT_A_NEIGHBOUR && found.position == 1, "a million numbers");
    free(drawn);
}

int main(void) {
    each_row();
    refusals();
    own_drives();
    long_list();
    return verdict("tests/c/checks");
}
