/*
 * Every function of the library, and hostile input to each: which refusal, and what memory holds
 * then. All that is lent stands in one record, in noise and with guards between; after a call every
 * byte that the call may not change is compared with what it was.
 */
#include "grainbodkin.h"
#include "check.h"

#include <string.h>

enum { SLOTS = 8, ALL_SLOTS = BODKIN_MARKERS + 2, SIDE = 8, SHEET = SIDE * SIDE, ROUTE = 16, FILE_BYTES = 15, NOISE = 0xA5 };

/*
 * A sheet has one byte more than the map, and one of distances twice as many numbers, so that a
 * sheet too long can be lent. Of the list SLOTS are lent, and the rest is noise; all of it is lent
 * to reach the limit on markers.
 */
static struct lent {
    uint64_t guard_0;
    struct bodkin_marker list[ALL_SLOTS];
    uint64_t guard_1;
    uint8_t labels[SHEET + 1];
    uint64_t guard_2;
    uint8_t region[SHEET + 1];
    uint64_t guard_3;
    uint16_t four[4][2 * SHEET];
    uint64_t guard_4;
    uint16_t route[ROUTE];
    uint64_t guard_5;
    uint32_t state;
    uint64_t guard_6;
    uint8_t out[FILE_BYTES + 1];
    uint64_t guard_7;
} now, before;

/* What a call is asked with, apart from the buffers. */
static struct asking {
    size_t lent, count, width, height, labels, region, four[4], route, hx, hy, x, y;
    uint16_t clearance;
} q;

/* A marker as high as can be, which stops a cart of no clearance. */
static struct bodkin_marker rock(uint16_t id, size_t x, size_t y) { return (struct bodkin_marker){id, (uint16_t)x, (uint16_t)y, BODKIN_TALLEST}; }

/* Three rocks, called R in document 01; home (0,2), place (2,5); a cart of no clearance. */
static void set(void) {
    memset(&now, NOISE, sizeof now);
    now.list[0] = rock(1, 3, 2);
    now.list[1] = rock(2, 4, 3);
    now.list[2] = rock(3, 5, 2);
    q = (struct asking){SLOTS, 3, SIDE, SIDE, SHEET, SHEET, {SHEET, SHEET, SHEET, SHEET}, ROUTE, 0, 2, 2, 5, 0};
}

static void keep(void) { memcpy(&before, &now, sizeof now); }

enum { NOTHING = 0, LABELS = 1, REGION = 2, FOUR = 4, PART = 8, STATE = 16 };

/*
 * Every byte but those named, which are sheets of the map or the first 10 crossings of the route,
 * is as it was.
 */
static bool only(unsigned changed) {
    if (changed & LABELS) memcpy(before.labels, now.labels, SHEET);
    if (changed & REGION) memcpy(before.region, now.region, SHEET);
    for (int way = 0; way < 4; way++)
        if (changed & FOUR) memcpy(before.four[way], now.four[way], SHEET * sizeof **now.four);
    if (changed & PART) memcpy(before.route, now.route, 10 * sizeof *now.route);
    if (changed & STATE) before.state = now.state;
    return memcmp(&now, &before, sizeof now) == 0;
}

/* The labels of R: document 01's example 6. */
static bool labelled(void) {
    bool right = true;
    for (size_t y = 0; y < SIDE; y++)
        for (size_t x = 0; x < SIDE; x++) {
            bool rock = (x == 3 && y == 2) || (x == 4 && y == 3) || (x == 5 && y == 2);
            bool closed = x >= 3 && x <= 5 && (y == 2 || y == 3);
            right &= now.labels[y * SIDE + x] == (rock ? BODKIN_ROCK : closed ? BODKIN_SHUT : BODKIN_OPEN);
        }
    return right;
}

static bool all_zero(const uint8_t *bytes) {
    bool zero = true;
    for (size_t i = 0; i < SHEET; i++) zero &= bytes[i] == 0;
    return zero;
}

/*
 * Eleven calls over a list, each as a number from what is asked: its refusal. At a refusal the
 * answer's other fields are zeros.
 */

static uint8_t zeros(uint8_t refusal, size_t others) {
    if (refusal != 0) expect(others == 0, "a refusal returns its number only");
    return refusal;
}

static uint8_t enter(void) {
    struct bodkin_counted r = bodkin_enter(now.list, q.lent, q.count, q.width, q.height, 9, q.x, q.y, BODKIN_TALLEST);
    return zeros(r.refusal, r.count);
}

static uint8_t clear(void) {
    struct bodkin_counted r = bodkin_clear(now.list, q.lent, q.count, q.width, q.height, 2);
    return zeros(r.refusal, r.count);
}

static uint8_t label(void) {
    struct bodkin_labelling r = bodkin_label(now.list, q.lent, q.count, q.width, q.height, q.clearance, now.labels, q.labels);
    return zeros(r.refusal, r.rocks | r.shut | r.groups);
}

static uint8_t sweeps(void) {
    struct bodkin_swept r = bodkin_sweeps(now.list, q.lent, q.count, q.width, q.height, q.clearance, now.labels, q.labels);
    return zeros(r.refusal, r.sweeps);
}

static uint8_t distances(void) {
    struct bodkin_four r = bodkin_distances(now.list, q.lent, q.count, q.width, q.height, q.clearance, q.x, q.y, now.labels, q.labels);
    return zeros(r.refusal, r.four[0] | r.four[1] | r.four[2] | r.four[3]);
}

static uint8_t measure(void) {
    return bodkin_measure(now.list, q.lent, q.count, q.width, q.height, q.clearance, now.labels, q.labels, now.four[0], q.four[0], now.four[1],
                          q.four[1], now.four[2], q.four[2], now.four[3], q.four[3]);
}

static uint8_t assured(void) {
    struct bodkin_assurance r = bodkin_assured(now.list, q.lent, q.count, q.width, q.height, q.clearance, q.hx, q.hy, q.x, q.y, now.labels, q.labels);
    return zeros(r.refusal, r.assured);
}

static uint8_t hop(void) {
    struct bodkin_homeward r = bodkin_hop(now.list, q.lent, q.count, q.width, q.height, q.clearance, q.hx, q.hy, q.x, q.y, now.labels, q.labels);
    return zeros(r.refusal, r.hops | r.x | r.y | r.a | r.b);
}

static uint8_t region(void) {
    return bodkin_region(now.list, q.lent, q.count, q.width, q.height, q.clearance, q.hx, q.hy, q.x, q.y, now.labels, q.labels, now.region, q.region);
}

static uint8_t drive(void) {
    struct bodkin_drove r = bodkin_drive(now.list, q.lent, q.count, q.width, q.height, q.clearance, q.hx, q.hy, q.x, q.y, now.labels, q.labels,
                                         now.region, q.region, now.route, q.route, &now.state);
    return zeros(r.refusal, r.length);
}

static uint8_t write_map(void) {
    struct bodkin_wrote_map r = bodkin_write(now.list, q.lent, q.count, q.width, q.height, q.clearance, now.out, FILE_BYTES);
    return zeros(r.refusal, r.bytes);
}

static const struct call {
    const char *name;
    uint8_t (*ask)(void);
    bool sheets; /* is lent a label sheet */
    bool place;  /* is asked for a place */
} calls[] = {
    {"enter", enter, false, true},     {"clear", clear, false, false}, {"label", label, true, false},
    {"distances", distances, true, true}, {"measure", measure, true, false}, {"assured", assured, true, true},
    {"hop", hop, true, true},          {"region", region, true, true}, {"drive", drive, true, true},
    {"write", write_map, false, false}, {"sweeps", sweeps, true, false},
};

enum { CALLS = sizeof calls / sizeof *calls };

/* The call refuses by this number and changes nothing. */
static void refused(const struct call *call, uint8_t number, const char *why) {
    char what[96];
    keep();
    uint8_t refusal = call->ask();
    snprintf(what, sizeof what, "%s, %s: refused %d, nothing changed", call->name, why, number);
    expect(refusal == number && only(NOTHING), what);
}

static void sizes(const struct call *call) {
    static const size_t bad[] = {0, BODKIN_SIDE + 1, SIZE_MAX};
    for (size_t i = 0; i < 3; i++) {
        set();
        q.width = bad[i];
        refused(call, BODKIN_BAD_SIZE, "width 0, 257 or the largest number");
        set();
        q.height = bad[i];
        refused(call, BODKIN_BAD_SIZE, "height 0, 257 or the largest number");
    }
}

static void sheets(const struct call *call) {
    static const size_t bad[] = {0, SHEET - 1, SHEET + 1};
    if (!call->sheets) return;
    for (size_t i = 0; i < 3; i++) {
        set();
        q.labels = bad[i];
        q.count = SIZE_MAX;
        refused(call, BODKIN_BAD_SHEET, "label sheet empty, short or long, list bad too");
        set();
        q.region = bad[i];
        if (call->ask == region || call->ask == drive) refused(call, BODKIN_BAD_SHEET, "region sheet empty, short or long");
    }
}

/*
 * A sheet of distances is counted in numbers: as many bytes as the map has crossings are half of
 * it, and twice as many are no sheet either.
 */
static void distance_sheets(const struct call *call) {
    static const size_t bad[] = {0, SHEET / 2, SHEET - 1, SHEET + 1, 2 * SHEET};
    static const char *const ways[] = {"east sheet empty, halved, short, long or twice", "south sheet empty, halved, short, long or twice",
                                       "west sheet empty, halved, short, long or twice", "north sheet empty, halved, short, long or twice"};
    for (size_t i = 0; call->ask == measure && i < sizeof bad / sizeof *bad; i++)
        for (size_t way = 0; way < 4; way++) {
            set();
            q.four[way] = bad[i];
            refused(call, BODKIN_BAD_SHEET, ways[way]);
        }
}

static void lists(const struct call *call) {
    static const size_t bad[] = {SLOTS + 1, BODKIN_MARKERS + 1, SIZE_MAX};
    static const uint16_t wrong[][3] = {{0, 4, 3}, {1, 4, 3}, {3, 4, 3}, {4, 4, 3}, {2, SIDE, 3}, {2, 4, SIDE}, {2, 0xFFFF, 0xFFFF}};
    for (size_t i = 0; i < 3; i++) {
        set();
        q.count = bad[i];
        q.x = SIDE;
        refused(call, BODKIN_BAD_LIST, "count over the list, place off the map too");
    }
    for (size_t i = 0; i < sizeof wrong / sizeof *wrong; i++) {
        set();
        now.list[1] = rock(wrong[i][0], wrong[i][1], wrong[i][2]);
        refused(call, BODKIN_BAD_LIST, "an id 0, equal or falling, or a marker off the map");
        now.list[1].height = 0;
        refused(call, BODKIN_BAD_LIST, "the same of a marker that stops no cart");
        q.clearance = BODKIN_TALLEST;
        refused(call, BODKIN_BAD_LIST, "and for a cart that nothing stops");
    }
    set();
    now.list[0].id = 0;
    refused(call, BODKIN_BAD_LIST, "the first id 0, and the ids rising");
    set();
    q.lent = 0;
    refused(call, BODKIN_BAD_LIST, "a list of length 0");
}

/*
 * All slots are lent and hold markers on R's crossings by turns, with rising ids that leave 9 free:
 * whatever is refused is so by the limit alone.
 */
static void set_many(size_t count) {
    set();
    for (size_t i = 3; i < ALL_SLOTS; i++) now.list[i] = rock((uint16_t)(i + 10), now.list[i % 3].x, now.list[i % 3].y);
    q.lent = ALL_SLOTS;
    q.count = count;
}

static void limit(const struct call *call) {
    char what[96];
    set_many(BODKIN_MARKERS + 1);
    refused(call, BODKIN_BAD_LIST, "8,193 markers in a longer list");
    set_many(BODKIN_MARKERS);
    if (call->ask == enter) {
        refused(call, BODKIN_NO_SLOT, "8,192 markers in a longer list");
        return;
    }
    snprintf(what, sizeof what, "%s: 8,192 markers are not too many", call->name);
    expect(call->ask() == (call->ask == write_map ? BODKIN_SHARED_CROSSING : BODKIN_DONE) && (!call->sheets || labelled()), what);
}

static void places(const struct call *call) {
    if (!call->place) return;
    set();
    q.x = SIDE;
    refused(call, BODKIN_BAD_PLACE, "place off the map by one");
    set();
    q.y = SIZE_MAX;
    refused(call, BODKIN_BAD_PLACE, "place off the map by far");
    if (call->ask == enter || call->ask == distances) return;
    set();
    q.hy = SIDE;
    refused(call, BODKIN_BAD_PLACE, "home off the map by one");
}

/* "At 8, 9, 10 and 11 a lent label sheet holds the labels." */
static void labels_at(uint8_t (*ask)(void), uint8_t number, unsigned changed, const char *what) {
    keep();
    expect(ask() == number && only(LABELS | changed) && labelled(), what);
}

static void ends(void) {
    for (size_t i = 0; i < CALLS; i++) {
        if (!calls[i].place || calls[i].ask == enter || calls[i].ask == distances) continue;
        set();
        q.x = 4, q.y = 2;
        labels_at(calls[i].ask, BODKIN_END_CLOSED, NOTHING, "an end on a shut crossing: refused 8, the label sheet holds the labels, nothing else changed");
        set();
        q.hx = q.x = 3, q.hy = q.y = 2;
        labels_at(calls[i].ask, BODKIN_END_CLOSED, NOTHING, "both ends on one rock: refused 8");
    }
    set();
    q.x = 7, q.y = 2;
    labels_at(region, BODKIN_NO_DRIVE, REGION, "region (0,2) to (7,2): refused 9, the label sheet holds the labels");
    expect(all_zero(now.region), "the region sheet is all 0 at 9");
    set();
    q.x = 7, q.y = 2;
    labels_at(drive, BODKIN_NO_DRIVE, REGION, "drive (0,2) to (7,2): refused 9, route and state unchanged");
    expect(all_zero(now.region), "the region sheet is all 0 at 9");
    set();
    q.x = 4, q.y = 5;
    labels_at(hop, BODKIN_NOT_ASSURED, NOTHING, "hop, home (0,2) not assured for (4,5): refused 11");
}

static void routes(void) {
    for (size_t length = 0; length < 10; length++) {
        set();
        q.x = 7, q.y = 4, q.route = length;
        labels_at(drive, BODKIN_SHORT_ROUTE, REGION, "a route shorter than distance + 1: refused 10, route and state unchanged");
        expect(now.region[2 * SIDE] == 1 && now.region[2 * SIDE + 7] == 0, "the region sheet holds the region at 10");
    }
    set();
    q.x = 7, q.y = 4, q.route = 10;
    labels_at(drive, BODKIN_DONE, REGION | PART | STATE, "a route of exactly distance + 1 crossings is long enough, and its rest is unchanged");
    expect(now.route[0] == 2 * SIDE && now.route[9] == 4 * SIDE + 7, "s first and d last");
}

static void list_calls(void) {
    set();
    keep();
    struct bodkin_counted entered = bodkin_enter(now.list, SLOTS, 3, SIDE, SIDE, 2, 0, 0, BODKIN_TALLEST);
    expect(entered.refusal == BODKIN_ID_IN_USE && only(NOTHING), "entering an id in use: refused 5");
    entered = bodkin_enter(now.list, SLOTS, 3, SIDE, SIDE, 0, 0, 0, BODKIN_TALLEST);
    expect(entered.refusal == BODKIN_BAD_PLACE && only(NOTHING), "a new id of 0: refused 4");
    entered = bodkin_enter(now.list, 3, 3, SIDE, SIDE, 9, 0, 0, BODKIN_TALLEST);
    expect(entered.refusal == BODKIN_NO_SLOT && only(NOTHING), "no slot: refused 7");
    struct bodkin_counted cleared = bodkin_clear(now.list, SLOTS, 3, SIDE, SIDE, 4);
    expect(cleared.refusal == BODKIN_ID_NOT_IN_USE && only(NOTHING), "clearing an id not in use: refused 6");
    entered = bodkin_enter(now.list, SLOTS, 3, SIDE, SIDE, 9, 3, 2, BODKIN_TALLEST);
    before.list[3] = rock(9, 3, 2);
    expect(entered.refusal == 0 && entered.count == 4 && only(NOTHING), "a second marker on a rock's crossing is kept, and nothing else changed");
    cleared = bodkin_clear(now.list, SLOTS, 4, SIDE, SIDE, 1);
    memmove(before.list, before.list + 1, 3 * sizeof *before.list);
    before.list[3] = (struct bodkin_marker){0, 0, 0, 0};
    expect(cleared.refusal == 0 && cleared.count == 3 && only(NOTHING), "clearing moves the later ones down and sets the freed slot to zeros");
}

static void last_slot(void) {
    set_many(BODKIN_MARKERS - 1);
    struct bodkin_counted entered = bodkin_enter(now.list, ALL_SLOTS, q.count, SIDE, SIDE, 9, 0, 0, BODKIN_TALLEST);
    expect(entered.refusal == 0 && entered.count == BODKIN_MARKERS && now.list[3].id == 9, "the 8,192nd marker is entered");
}

static void askings(void) {
    set();
    keep();
    struct bodkin_labelling labelling = bodkin_label(now.list, SLOTS, 3, SIDE, SIDE, q.clearance, now.labels, SHEET);
    expect(labelling.refusal == 0 && labelling.rocks == 3 && labelling.shut == 3 && labelling.groups == 1 && labelled() && only(LABELS),
           "R: three rocks, three shut, one group");
    struct bodkin_swept swept = bodkin_sweeps(now.list, SLOTS, 3, SIDE, SIDE, q.clearance, now.labels, SHEET);
    expect(swept.refusal == 0 && swept.sweeps == 1 && labelled() && only(LABELS), "R: one sweep shuts all three");
    struct bodkin_four four = bodkin_distances(now.list, SLOTS, 3, SIDE, SIDE, q.clearance, 0, 2, now.labels, SHEET);
    expect(four.four[0] == 3 && four.four[1] == 65535 && four.four[2] == 65535 && four.four[3] == 65535 && only(LABELS),
           "R: (0,2) has 3, 65535, 65535, 65535");
    expect(measure() == 0 && only(LABELS | FOUR) && now.four[0][2 * SIDE] == 3 && now.four[3][4] == 2 && now.four[2][2 * SIDE + 4] == 0,
           "the same of the whole map");
    expect(bodkin_assured(now.list, SLOTS, 3, SIDE, SIDE, q.clearance, 0, 2, 2, 5, now.labels, SHEET).assured && only(LABELS), "assured for (2,5)");
    struct bodkin_homeward home = bodkin_hop(now.list, SLOTS, 3, SIDE, SIDE, q.clearance, 0, 2, 2, 2, now.labels, SHEET);
    expect(home.hops == 1 && home.x == 1 && home.y == 2 && home.a == 0 && home.b == 0 && only(LABELS), "one hop from (2,2) to home (0,2)");
    size_t in = 0;
    q.hx = q.hy = 0, q.x = 7, q.y = 3;
    expect(region() == 0 && only(LABELS | REGION), "region (0,0) to (7,3)");
    for (size_t i = 0; i < SHEET; i++) in += now.region[i];
    expect(in == 20, "it has 20 crossings");
}

static void files(void) {
    static const uint8_t file[FILE_BYTES] = {'P', '4', '\n', '8', ' ', '8', '\n', 0, 0, 0, 0, 8, 0x14, 0, 0};
    set();
    keep();
    struct bodkin_wrote_map wrote = bodkin_write(now.list, SLOTS, 3, SIDE, SIDE, q.clearance, now.out, FILE_BYTES + 1);
    memcpy(before.out, file, FILE_BYTES);
    expect(wrote.refusal == 0 && wrote.bytes == FILE_BYTES && only(NOTHING), "R written, the byte past its end unchanged");
    wrote = bodkin_write(now.list, SLOTS, 3, SIDE, SIDE, q.clearance, now.out, FILE_BYTES - 1);
    expect(wrote.refusal == BODKIN_SHORT_OUTPUT && only(NOTHING), "an output one byte short: refused 17");
    now.list[1] = rock(2, 3, 2);
    keep();
    wrote = bodkin_write(now.list, SLOTS, 3, SIDE, SIDE, q.clearance, now.out, 0);
    expect(wrote.refusal == BODKIN_SHARED_CROSSING && only(NOTHING), "two markers on one crossing: refused 16, and before 17");
    struct bodkin_read_map map = bodkin_read(file, FILE_BYTES, now.list, 2);
    expect(map.refusal == BODKIN_NO_SLOT && map.width == 0 && map.height == 0 && map.count == 0 && only(NOTHING), "no slot for the third rock: refused 7");
    map = bodkin_read(file, FILE_BYTES, now.list, SLOTS);
    before.list[0] = rock(1, 4, 3);
    before.list[1] = rock(2, 3, 2);
    before.list[2] = rock(3, 5, 2);
    expect(map.refusal == 0 && map.width == SIDE && map.height == SIDE && map.count == 3 && only(NOTHING), "read again, in raster order, other slots unchanged");
}

int main(void) {
    for (size_t i = 0; i < CALLS; i++) {
        sizes(&calls[i]);
        sheets(&calls[i]);
        distance_sheets(&calls[i]);
        lists(&calls[i]);
        limit(&calls[i]);
        places(&calls[i]);
    }
    ends();
    routes();
    list_calls();
    last_slot();
    askings();
    files();
    return verdict("tests/c/calls");
}
