/*
 * What the header adds to the calls: names for the longest sheet, route, file and picture, each as
 * long as it has to be; refusals in words; and entering and clearing with ids of any width. It is
 * built as C and as C++.
 */
#include "grainbodkin.h"
#include "check.h"

#include <string.h>

enum { SLOTS = 4 };

static struct bodkin_marker list[SLOTS];
static uint8_t labels[BODKIN_CROSSINGS], region[BODKIN_CROSSINGS];
static uint8_t out[BODKIN_PICTURE];
static uint16_t route[BODKIN_ROUTE], sheet[BODKIN_CROSSINGS];

/* The drive across the largest map, into a route of so many slots. */
static struct bodkin_drove longest(size_t slots) {
    uint32_t state = 0;
    return bodkin_drive(list, SLOTS, 0, BODKIN_SIDE, BODKIN_SIDE, 0, 0, 0, BODKIN_SIDE - 1,
                        BODKIN_SIDE - 1, labels, BODKIN_CROSSINGS, region, BODKIN_CROSSINGS, route,
                        slots, &state);
}

static struct bodkin_wrote_map largest(size_t bytes) {
    return bodkin_write(list, SLOTS, 0, BODKIN_SIDE, BODKIN_SIDE, 0, out, bytes);
}

static struct bodkin_sheet_written drawn(size_t bytes) {
    return bodkin_write_sheet(sheet, BODKIN_CROSSINGS, BODKIN_SIDE, BODKIN_SIDE, out, bytes);
}

static void longest_of_each(void) {
    expect(longest(BODKIN_ROUTE).length == BODKIN_ROUTE, "BODKIN_ROUTE slots hold every drive");
    expect(longest(BODKIN_ROUTE - 1).refusal == BODKIN_SHORT_ROUTE, "one slot less does not");
    expect(largest(BODKIN_FILE).bytes == BODKIN_FILE, "BODKIN_FILE bytes hold every file");
    expect(largest(BODKIN_FILE - 1).refusal == BODKIN_SHORT_OUTPUT, "one byte less does not");
    expect(drawn(BODKIN_PICTURE).bytes == BODKIN_PICTURE, "BODKIN_PICTURE bytes hold every picture");
    expect(drawn(BODKIN_PICTURE - 1).refusal == BODKIN_SHORT_OUTPUT, "and one byte less does not");
}

static void texts(void) {
    bool all = true;
    for (unsigned i = 0; i < 256; i++)
        for (unsigned j = 0; j < i; j++) {
            const char *one = bodkin_refusal_text((uint8_t)i), *other = bodkin_refusal_text((uint8_t)j);
            all &= (strcmp(one, other) == 0) == (j > BODKIN_NO_LINES);
        }
    expect(all, "every refusal has words of its own, and no other number has");
}

/* Markers 1 and 2 on (0, 0), in a list of four slots. */
static void two(void) {
    struct bodkin_marker first = {1, 0, 0, 1}, second = {2, 0, 0, 1}, none = {0, 0, 0, 0};
    list[0] = first;
    list[1] = second;
    list[2] = list[3] = none;
}

/* Enters or clears an id of any width, on a map of this width; the list stays at a refusal. */
static uint8_t wide(bool enter, size_t width, uint64_t id) {
    struct bodkin_marker before[SLOTS];
    two();
    memcpy(before, list, sizeof list);
    struct bodkin_counted counted = enter ? bodkin_enter_wide(list, SLOTS, 2, width, 1, id, 0, 0, BODKIN_TALLEST)
                                          : bodkin_clear_wide(list, SLOTS, 2, width, 1, id);
    bool stays = memcmp(before, list, sizeof list) == 0;
    expect(counted.refusal ? counted.count == 0 && stays : !stays,
           "a refusal leaves the list as it was, success does not");
    return counted.refusal;
}

static void wide_ids(void) {
    int cut = 65537;
    expect(wide(true, 1, (uint64_t)cut) == BODKIN_BAD_PLACE,
           "entering 65,537, which a uint16_t has as 1: refused 4");
    expect(wide(false, 1, (uint64_t)cut) == BODKIN_ID_NOT_IN_USE,
           "clearing 65,537: refused 6, and marker 1 stays");
    expect(wide(true, 1, 65536) == BODKIN_BAD_PLACE, "entering 65,536: refused 4");
    expect(wide(false, 1, UINT64_MAX) == BODKIN_ID_NOT_IN_USE,
           "clearing the largest number: refused 6");
    expect(wide(true, 0, 65536) == BODKIN_BAD_SIZE, "a lower refusal comes first: entering, 1");
    expect(wide(false, 0, 65536) == BODKIN_BAD_SIZE, "clearing, 1");
    expect(wide(true, 1, 65535) == BODKIN_DONE, "entering 65,535");
    expect(wide(true, 1, 2) == BODKIN_ID_IN_USE, "entering an id in use: refused 5");
    expect(wide(true, 1, 0) == BODKIN_BAD_PLACE, "entering 0: refused 4");
    expect(wide(false, 1, 1) == BODKIN_DONE, "clearing 1");
    expect(wide(false, 1, 3) == BODKIN_ID_NOT_IN_USE, "clearing an id not in use: refused 6");
}

int main(void) {
    longest_of_each();
    texts();
    wide_ids();
    return verdict("tests/c/header");
}
