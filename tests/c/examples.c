/*
 * Document 01's example 12 and its "Errors that look reasonable", run through the library and
 * compared.
 */
#include "grainbodkin.h"
#include "check.h"

#include <string.h>

enum { SLOTS = 16, SIDE = 8, CROSSINGS = SIDE * SIDE };

static struct bodkin_marker list[SLOTS];
static size_t count;
static struct bodkin_labelling labelling;
static uint8_t labels[CROSSINGS], region[CROSSINGS];
static uint16_t route[CROSSINGS];

static void enter(uint16_t id, size_t x, size_t y) { count = bodkin_enter(list, SLOTS, count, SIDE, SIDE, id, x, y, BODKIN_TALLEST).count; }

static void clear(uint16_t id) { count = bodkin_clear(list, SLOTS, count, SIDE, SIDE, id).count; }

static void label(void) { labelling = bodkin_label(list, SLOTS, count, SIDE, SIDE, 0, labels, CROSSINGS); }

static int at(size_t x, size_t y) { return labels[y * SIDE + x]; }

static size_t closed(void) { return labelling.rocks + labelling.shut; }

/* Three rocks, called R in document 01. */
static void enter_r(void) {
    count = 0;
    enter(1, 3, 2);
    enter(2, 4, 3);
    enter(3, 5, 2);
}

/* A drive from a state, and how many crossings it has. */
static size_t drive(size_t sx, size_t sy, size_t dx, size_t dy, uint32_t *state) {
    return bodkin_drive(list, SLOTS, count, SIDE, SIDE, 0, sx, sy, dx, dy, labels, CROSSINGS, region, CROSSINGS, route, CROSSINGS, state).length;
}

/* Example 11 and document 02's request 13: the state moves on once for every hop. */
static void a_draw_for_every_hop(void) {
    static const uint16_t eleven[] = {0, 1, 2, 10}, past[] = {16, 17, 18, 26, 34, 35, 36, 37, 38, 39};
    uint32_t state = 0, other = 0;
    count = 0;
    expect(drive(0, 0, 2, 1, &state) == 4 && memcmp(route, eleven, sizeof eleven) == 0 && state == 0xd1ccf6e9, "example 11, and the state after it");
    enter_r();
    state = 0;
    expect(drive(0, 2, 7, 4, &state) == 10 && memcmp(route, past, sizeof past) == 0 && state == 0x81fdbee7, "past the rocks of R, from (0,2) to (7,4): nine draws");
    count = 0;
    expect(drive(7, 7, 0, 5, &other) == 10 && other == state, "another cart, equally far and without rocks, has the same state");
    expect(drive(3, 3, 3, 3, &other) == 1 && other == state, "a drive of no hops leaves it");
}

static void example_12(void) {
    uint32_t state = 0;
    count = 0;
    route[0] = 9;
    struct bodkin_drove drove = bodkin_drive(list, SLOTS, count, 1, 1, 0, 0, 0, 0, 0, labels, 1, region, 1, route, 1, &state);
    expect(drove.refusal == 0 && drove.length == 1 && route[0] == 0 && state == 0,
           "map 1 by 1 without rocks: (0,0) to itself is a drive of one crossing");
    count = bodkin_enter(list, SLOTS, count, 1, 1, 1, 0, 0, BODKIN_TALLEST).count;
    drove = bodkin_drive(list, SLOTS, count, 1, 1, 0, 0, 0, 0, 0, labels, 1, region, 1, route, 1, &state);
    expect(drove.refusal == BODKIN_END_CLOSED && drove.length == 0, "with a rock, 8");
}

static void markers_kept_apart(void) {
    count = 0;
    enter(7, 3, 3);
    enter(2, 3, 3);
    enter(5, 4, 3);
    expect(count == 3 && list[0].id == 2 && list[1].id == 5 && list[2].id == 7, "markers on one crossing and near ones are each kept, by id");
    clear(2);
    label();
    expect(count == 2 && at(3, 3) == BODKIN_ROCK && at(4, 3) == BODKIN_ROCK, "clearing one of two markers on a crossing leaves the rock");
    expect(list[2].id == 0 && list[2].x == 0 && list[2].y == 0 && list[2].height == 0, "the slot so freed holds zeros");
}

static void shut_on_one_axis(void) {
    count = 0;
    enter(1, 1, 1);
    enter(2, 3, 1);
    label();
    expect(at(2, 1) == BODKIN_SHUT && closed() == 3 && labelling.groups == 1, "two closed neighbours on one axis shut a crossing");
    clear(2);
    label();
    expect(at(2, 1) == BODKIN_OPEN && closed() == 1, "clearing a marker opens the shut crossing again");
}

static void more_than_one_pass(void) {
    count = 0;
    for (uint16_t i = 0; i < SIDE; i++) enter((uint16_t)(i + 1), i, SIDE - 1 - (size_t)i);
    label();
    expect(closed() == CROSSINGS && labelling.groups == 1, "a diagonal of rocks shuts the whole map, which one pass in number order does not");
}

static void top_row_is_north(void) {
    static const uint8_t file[] = "P1 2 2 1000";
    struct bodkin_read_map map = bodkin_read(file, sizeof file - 1, list, SLOTS);
    expect(map.refusal == 0 && map.count == 1 && list[0].x == 0 && list[0].y == 1, "the first raster row is the northmost");
}

static void not_by_open_neighbours_alone(void) {
    bool arrives = true, strands = false;
    enter_r();
    for (uint32_t z = 0; z < 200; z++) {
        uint32_t state = z * 2654435761u;
        struct bodkin_drove drove = bodkin_drive(list, SLOTS, count, SIDE, SIDE, 0, 0, 0, 7, 3, labels, CROSSINGS, region, CROSSINGS, route, CROSSINGS, &state);
        arrives &= drove.refusal == 0 && drove.length == 11 && route[10] == 3 * SIDE + 7;
        for (size_t i = 0; i < drove.length; i++) strands |= route[i] == 3 * SIDE + 2;
    }
    expect(arrives && !strands, "from (0,0) to (7,3) in R every drive arrives, and none goes by (2,3)");
}

static void way_home(void) {
    enter_r();
    struct bodkin_assurance home = bodkin_assured(list, SLOTS, count, SIDE, SIDE, 0, 0, 2, 2, 5, labels, CROSSINGS);
    expect(home.refusal == 0 && home.assured, "R, home (0,2): assured for (2,5)");
    home = bodkin_assured(list, SLOTS, count, SIDE, SIDE, 0, 0, 2, 3, 5, labels, CROSSINGS);
    expect(home.refusal == 0 && home.assured, "for (3,5), whose offset equals home's distance");
    home = bodkin_assured(list, SLOTS, count, SIDE, SIDE, 0, 0, 2, 4, 5, labels, CROSSINGS);
    expect(home.refusal == 0 && !home.assured, "not for (4,5)");
    struct bodkin_homeward one = bodkin_hop(list, SLOTS, count, SIDE, SIDE, 0, 0, 2, 3, 4, labels, CROSSINGS);
    expect(one.hops == 1 && one.x == 2 && one.y == 4, "from (3,4), above the block, the one hop leaves its column");
    struct bodkin_homeward two = bodkin_hop(list, SLOTS, count, SIDE, SIDE, 0, 0, 2, 2, 5, labels, CROSSINGS);
    expect(two.hops == 2 && two.x == 1 && two.y == 5 && two.a == 2 && two.b == 4, "two hops are permitted from (2,5), the east-west one first");
    struct bodkin_homeward there = bodkin_hop(list, SLOTS, count, SIDE, SIDE, 0, 0, 2, 0, 2, labels, CROSSINGS);
    expect(there.refusal == 0 && there.hops == 0, "at home there is none");
}

int main(void) {
    a_draw_for_every_hop();
    example_12();
    markers_kept_apart();
    shut_on_one_axis();
    more_than_one_pass();
    top_row_is_north();
    not_by_open_neighbours_alone();
    way_home();
    return verdict("tests/c/examples");
}
