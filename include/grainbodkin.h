/*
 * Grainbodkin: the obstacle layer for carts on a grid of crossings.
 *
 * The seventeen calls of the static library, target/staticlib/liblayer.a. Each call answers by the
 * lowest refusal that applies, but 19 before 10, or succeeds: for every value of every number and
 * every content of every buffer. What C cannot let a callee check is the caller's part: a pointer
 * stands before its length and points to so many elements, aligned for their type; what a call may
 * write overlaps nothing else that is lent to the same call. A pointer is not null, even where its
 * length is 0. There is room on the stack, BODKIN_STACK bytes below the caller;
 * docs/INTEGRATORS.md tells how much each call takes.
 *
 * A crossing is (x, y), x rising to the east from 0, y rising to the north from 0. Its number is
 * y * width + x. Sheets and routes go by number.
 *
 * A marker makes its crossing a rock for a cart exactly if its height is greater than the cart's
 * ground clearance. Every asking, and writing a map, takes the clearance of one cart: rocks, closed
 * crossings and all that follows from them are that cart's.
 */
#ifndef GRAINBODKIN_H
#define GRAINBODKIN_H

#include <stdbool.h>
#include <stddef.h>
#include <stdint.h>

/* An answer that is dropped is a refusal that goes unseen, so the compiler warns of it. */
#if (defined(__cplusplus) && __cplusplus >= 201703L) || \
    (defined(__STDC_VERSION__) && __STDC_VERSION__ >= 202311L)
#define BODKIN_ANSWER [[nodiscard]]
#elif defined(__GNUC__)
#define BODKIN_ANSWER __attribute__((warn_unused_result))
#else
#define BODKIN_ANSWER
#endif

#ifdef __cplusplus
extern "C" {
#endif

/*
 * The limits: width and height of a map, markers in use, the number that says no distance, and the
 * greatest height and the greatest clearance, in centimetres, as every height and clearance is.
 */
#define BODKIN_SIDE 256
#define BODKIN_MARKERS 8192
#define BODKIN_NO_DISTANCE 65535
#define BODKIN_TALLEST 65535

/*
 * What they come to: the bytes or numbers of the largest sheet, the crossings of the longest drive,
 * and the bytes of the longest file that is written, "P4", LF, three digits, space, three digits,
 * LF and rows; and of the longest picture, which has six bytes more, "65535" and LF, and two bytes
 * a crossing. A map may have more rocks than a list may have markers.
 */
#define BODKIN_CROSSINGS (BODKIN_SIDE * BODKIN_SIDE)
#define BODKIN_ROUTE (2 * BODKIN_SIDE - 1)
#define BODKIN_FILE (11 + BODKIN_SIDE * ((BODKIN_SIDE + 7) / 8))
#define BODKIN_PICTURE (17 + 2 * BODKIN_CROSSINGS)

/* The most bytes of stack that a call is held to below its caller. */
#define BODKIN_STACK 136192

/*
 * The largest value of a picture of distances: that of one that is written, two bytes a crossing,
 * and that of an old one, one byte a crossing, which is read too.
 */
#define BODKIN_LARGEST 65535
#define BODKIN_OLD_LARGEST 255

/* A label sheet's bytes. */
#define BODKIN_OPEN 0
#define BODKIN_ROCK 1
#define BODKIN_SHUT 2

/* Refusal numbers. 0 is success. */
enum bodkin_refusal {
    BODKIN_DONE = 0,
    BODKIN_BAD_SIZE = 1,         /* width or height is 0 or over BODKIN_SIDE */
    BODKIN_BAD_SHEET = 2,        /* a lent sheet is not width * height bytes (of distances:
                                    sixteen-bit numbers) */
    BODKIN_BAD_LIST = 3,         /* count over BODKIN_MARKERS or over the list lent, an id 0,
                                    ids not rising, or a marker off the map */
    BODKIN_BAD_PLACE = 4,        /* a place or new marker off the map, or a new id of 0 */
    BODKIN_ID_IN_USE = 5,        /* entering an id in use */
    BODKIN_ID_NOT_IN_USE = 6,    /* clearing an id not in use */
    BODKIN_NO_SLOT = 7,          /* count, or a file's rocks, would pass the list lent or
                                    BODKIN_MARKERS */
    BODKIN_END_CLOSED = 8,       /* assurance, hop, region, drive, check or crossing lines
                                    asked, an end closed */
    BODKIN_NO_DRIVE = 9,         /* region or drive asked, both ends open, no shortest drive */
    BODKIN_SHORT_ROUTE = 10,     /* route buffer shorter than distance + 1 */
    BODKIN_NOT_ASSURED = 11,     /* hop asked, home not assured */
    BODKIN_BAD_LETTERS = 12,     /* first two bytes are neither P1 nor P4, of a picture
                                    not P5, or fewer than two */
    BODKIN_BAD_HEADER = 13,      /* header against the rules or cut short, or a foreign byte
                                    before a P1 raster's last digit */
    BODKIN_SHORT_RASTER = 14,    /* raster ends early */
    BODKIN_LONG_RASTER = 15,     /* bytes after the raster (in P1: other than blanks) */
    BODKIN_SHARED_CROSSING = 16, /* two markers on one crossing, low ones included, when
                                    writing */
    BODKIN_SHORT_OUTPUT = 17,    /* output too short for the whole file */
    BODKIN_BAD_LARGEST = 18,     /* a picture's largest value is neither BODKIN_LARGEST nor
                                    BODKIN_OLD_LARGEST */
    BODKIN_NO_LINES = 19         /* drive by way of crossing lines asked, and there are none;
                                    given before 10 */
};

/* Why a crossing of a drawn list is at fault. 0 is accepted. */
enum bodkin_reason {
    BODKIN_ACCEPTED = 0,
    BODKIN_WRONG_START = 1,     /* the first number is not that of s */
    BODKIN_OFF_THE_MAP = 2,     /* no crossing of the map has the number */
    BODKIN_IS_CLOSED = 3,       /* the crossing is closed */
    BODKIN_NOT_A_NEIGHBOUR = 4, /* it is no neighbour of the one before */
    BODKIN_NOT_NEARER = 5,      /* it is not nearer d than the one before */
    BODKIN_ENDED_EARLY = 6,     /* the list ended before d */
    BODKIN_WENT_ON = 7          /* the list went on after d */
};

/*
 * A rock marker: an id, 1 to 65,535, a crossing, and a height, 0 to BODKIN_TALLEST. Several may
 * stand on one crossing; each is kept, and the highest decides whether it is a rock.
 */
struct bodkin_marker {
    uint16_t id;
    uint16_t x;
    uint16_t y;
    uint16_t height;
};

/* Answers. `refusal` is 0 or the refusal's number; at a refusal every other field is 0 or false. */

struct bodkin_counted {
    uint8_t refusal;
    size_t count;
};

struct bodkin_labelling {
    uint8_t refusal;
    size_t rocks;  /* crossings with a rock */
    size_t shut;   /* shut crossings */
    size_t groups; /* groups of closed crossings */
};

struct bodkin_swept {
    uint8_t refusal;
    size_t sweeps; /* sweeps that changed something, from the rocks alone */
};

struct bodkin_four {
    uint8_t refusal;
    uint16_t four[4]; /* east, south, west, north */
};

struct bodkin_assurance {
    uint8_t refusal;
    bool assured;
};

struct bodkin_homeward {
    uint8_t refusal;
    uint8_t hops; /* 0: there; 1: (x, y); 2: (x, y), the east-west one, and (a, b). What is not
                     named is 0. */
    size_t x;
    size_t y;
    size_t a;
    size_t b;
};

struct bodkin_drove {
    uint8_t refusal;
    size_t length; /* crossings filled at the front of the route */
};

struct bodkin_checked {
    uint8_t refusal;
    uint8_t reason;  /* 0: accepted; otherwise why the crossing at `position` is at fault */
    size_t position; /* from 0 on; of a list that ended early, its length */
};

struct bodkin_crossing_lines {
    uint8_t refusal;
    bool yes;      /* whether there are crossing lines; where not, column and row are 0 */
    size_t column; /* the westmost column */
    size_t row;    /* the southmost row */
};

struct bodkin_read_map {
    uint8_t refusal;
    size_t width;
    size_t height;
    size_t count;
};

struct bodkin_wrote_map {
    uint8_t refusal;
    size_t bytes;
};

/* How many bytes of a picture were written, or the refusal. */
struct bodkin_sheet_written {
    uint8_t refusal;
    size_t bytes;
};

/* Width and height of a picture that was read, or the refusal. */
struct bodkin_sheet_read {
    uint8_t refusal;
    size_t width;
    size_t height;
};

/*
 * Every call with a list takes `list`, its length `lent`, and `count`, how many of its slots are in
 * use. Slots past the count are never read. Apart from bodkin_enter, bodkin_clear and bodkin_read
 * no call changes a slot.
 *
 * An asking takes `clearance`, the cart's, right after the map's width and height. Every clearance
 * is allowed. With more of it, crossings only open: what is open for a cart is open for every
 * higher one. One of BODKIN_TALLEST opens the whole map.
 *
 * An id is sixteen bits wide, and C cuts a wider number silently: an `int` of 65537 clears marker
 * 1. Where ids come as wider numbers, use bodkin_enter_wide and bodkin_clear_wide, or -Wconversion.
 * A height is cut so too, and one of 65536 would be 0, which stops no cart: -Wconversion warns.
 */

/*
 * Enters a marker of any height: puts it at its place by id, moves the later ones up by one, and
 * hands back the new count.
 * Refuses 1, 3, 4, 5 or 7; then no slot changes.
 */
BODKIN_ANSWER
struct bodkin_counted bodkin_enter(struct bodkin_marker *list, size_t lent, size_t count,
                                   size_t width, size_t height, uint16_t id, size_t x, size_t y,
                                   uint16_t marker_height);

/*
 * Clears the marker with this id: moves the later ones down, sets the one slot so freed to zeros,
 * and hands back the new count.
 * Refuses 1, 3 or 6; then no slot changes.
 */
BODKIN_ANSWER
struct bodkin_counted bodkin_clear(struct bodkin_marker *list, size_t lent, size_t count,
                                   size_t width, size_t height, uint16_t id);

/*
 * Labels the map: one byte a crossing into `labels`, and the numbers of rocks' crossings, shut
 * crossings and groups. The last two may rise with the clearance, where a low stone between two
 * high ones becomes a shut crossing, or no longer joins two groups.
 * Refuses 1, 2 or 3; then no byte changes.
 */
BODKIN_ANSWER
struct bodkin_labelling bodkin_label(const struct bodkin_marker *list, size_t lent, size_t count,
                                     size_t width, size_t height, uint16_t clearance,
                                     uint8_t *labels, size_t labels_len);

/*
 * Labels the map sweep by sweep, and hands back the number of sweeps that changed something. In a
 * sweep all crossings are judged together on the state before it, and those open ones with two or
 * more closed neighbours become closed; the first sweep starts from the rocks alone. The number is
 * never more than the shut crossings, and 0 exactly if there are none. The label sheet holds the
 * labels, the same as bodkin_label leaves.
 * Refuses 1, 2 or 3; then no byte changes.
 */
BODKIN_ANSWER
struct bodkin_swept bodkin_sweeps(const struct bodkin_marker *list, size_t lent, size_t count,
                                  size_t width, size_t height, uint16_t clearance,
                                  uint8_t *labels, size_t labels_len);

/*
 * The four clear distances of (x, y), east, south, west, north: the hops to the nearest closed
 * crossing that way, or BODKIN_NO_DISTANCE. At a closed crossing all four are 0. The label sheet
 * holds the labels.
 * Refuses 1, 2, 3 or 4; then no byte changes.
 */
BODKIN_ANSWER
struct bodkin_four bodkin_distances(const struct bodkin_marker *list, size_t lent, size_t count,
                                    size_t width, size_t height, uint16_t clearance, size_t x,
                                    size_t y, uint8_t *labels, size_t labels_len);

/*
 * The clear distances of the whole map, one sheet a way, of one sixteen-bit number a crossing. The
 * lengths of these four count numbers, not bytes. The label sheet holds the labels. Answers 0.
 * Refuses 1, 2 or 3; then no byte changes.
 */
BODKIN_ANSWER
uint8_t bodkin_measure(const struct bodkin_marker *list, size_t lent, size_t count, size_t width,
                       size_t height, uint16_t clearance, uint8_t *labels, size_t labels_len,
                       uint16_t *east, size_t east_len, uint16_t *south, size_t south_len,
                       uint16_t *west, size_t west_len, uint16_t *north, size_t north_len);

/*
 * Whether home (hx, hy) is assured for the place (x, y): both are open and, on each axis, the
 * offset is 0, or home's distance that way is BODKIN_NO_DISTANCE, or the offset is at most that
 * distance. The label sheet holds the labels.
 * Refuses 1, 2, 3 or 4, and then no byte changes; or 8, and then the label sheet holds the labels.
 */
BODKIN_ANSWER
struct bodkin_assurance bodkin_assured(const struct bodkin_marker *list, size_t lent, size_t count,
                                       size_t width, size_t height, uint16_t clearance, size_t hx,
                                       size_t hy, size_t x, size_t y, uint8_t *labels,
                                       size_t labels_len);

/*
 * Every permitted hop from (x, y) towards home (hx, hy), the east-west one first; at home none. A
 * cart that starts where home is assured and takes such hops, whichever it takes, is home after
 * exactly the east-west plus north-south distance, as long as the markers stay the same on its way
 * and each hop is asked with its clearance.
 * The label sheet holds the labels.
 * Refuses 1, 2, 3 or 4, and then no byte changes; or 8 or 11, and then the label sheet holds the
 * labels.
 */
BODKIN_ANSWER
struct bodkin_homeward bodkin_hop(const struct bodkin_marker *list, size_t lent, size_t count,
                                  size_t width, size_t height, uint16_t clearance, size_t hx,
                                  size_t hy, size_t x, size_t y, uint8_t *labels,
                                  size_t labels_len);

/*
 * The region: 1 in `region` for each crossing on at least one shortest drive from (sx, sy) to
 * (dx, dy), 0 for every other. The label sheet holds the labels. Answers 0.
 * Refuses 1, 2, 3 or 4, and then no byte changes; or 8 or 9, and then the label sheet holds the
 * labels, and the region sheet is unchanged at 8 and all 0 at 9.
 */
BODKIN_ANSWER
uint8_t bodkin_region(const struct bodkin_marker *list, size_t lent, size_t count, size_t width,
                      size_t height, uint16_t clearance, size_t sx, size_t sy, size_t dx,
                      size_t dy, uint8_t *labels, size_t labels_len, uint8_t *region,
                      size_t region_len);

/*
 * A shortest drive from (sx, sy) to (dx, dy): crossing numbers at the front of `route`, s first and
 * d last, drawn from the 32-bit `state`, which moves on once for each hop, whatever rocks are
 * passed; a drive of no hops leaves it. The rest of the route is unchanged. The sheets hold labels
 * and region. A route of BODKIN_ROUTE slots is long enough for every drive.
 * Refuses 1, 2, 3 or 4, and then no byte changes; or 8, 9 or 10, and then the label sheet holds the
 * labels, the region sheet is unchanged at 8, all 0 at 9, the region at 10, and route and state are
 * unchanged.
 */
BODKIN_ANSWER
struct bodkin_drove bodkin_drive(const struct bodkin_marker *list, size_t lent, size_t count,
                                 size_t width, size_t height, uint16_t clearance, size_t sx,
                                 size_t sy, size_t dx, size_t dy, uint8_t *labels,
                                 size_t labels_len, uint8_t *region, size_t region_len,
                                 uint16_t *route, size_t route_len, uint32_t *state);

/*
 * Checks a drawn list, crossing numbers in order: accepted exactly if it is a shortest drive from
 * (sx, sy) to (dx, dy); otherwise the position of the first crossing at fault, and why. A crossing
 * after d has gone on; at any other the reasons are tried in their order. The list is only read.
 * The label sheet holds the labels.
 * Refuses 1, 2, 3 or 4, and then no byte changes; or 8, and then the label sheet holds the labels.
 */
BODKIN_ANSWER
struct bodkin_checked bodkin_check(const struct bodkin_marker *list, size_t lent, size_t count,
                                   size_t width, size_t height, uint16_t clearance, size_t sx,
                                   size_t sy, size_t dx, size_t dy, uint8_t *labels,
                                   size_t labels_len, const uint16_t *drawn, size_t drawn_len);

/*
 * Whether (sx, sy) and (dx, dy) have crossing lines: a column between them, ends included, and a
 * row between them, ends included, each open throughout the rectangle that the two places span. If
 * so there is a shortest drive, and the westmost such column and the southmost such row are handed
 * back. The label sheet holds the labels.
 * Refuses 1, 2, 3 or 4, and then no byte changes; or 8, and then the label sheet holds the labels.
 */
BODKIN_ANSWER
struct bodkin_crossing_lines bodkin_lines(const struct bodkin_marker *list, size_t lent,
                                          size_t count, size_t width, size_t height,
                                          uint16_t clearance, size_t sx, size_t sy, size_t dx,
                                          size_t dy, uint8_t *labels, size_t labels_len);

/*
 * The drive from (sx, sy) to (dx, dy) by way of the crossing where the lines that bodkin_lines
 * hands back meet: the drive to there, then the one from there with the state handed on, the
 * meeting crossing written once. It is a shortest drive. Route, state and sheets as for
 * bodkin_drive; the region sheet holds the region of s and d.
 * Refuses 1, 2, 3 or 4, and then no byte changes; or 8, 19 or 10, in this order, and then the label
 * sheet holds the labels, the region sheet is unchanged at 8 and 19 and the region at 10, and route
 * and state are unchanged.
 */
BODKIN_ANSWER
struct bodkin_drove bodkin_lines_drive(const struct bodkin_marker *list, size_t lent, size_t count,
                                       size_t width, size_t height, uint16_t clearance, size_t sx,
                                       size_t sy, size_t dx, size_t dy, uint8_t *labels,
                                       size_t labels_len, uint8_t *region, size_t region_len,
                                       uint16_t *route, size_t route_len, uint32_t *state);

/*
 * Reads a PBM map, P1 or P4. Its rocks become markers with ids 1, 2, 3 and on, in raster order, in
 * the first slots, each of height BODKIN_TALLEST; other slots stay. Hands back width, height and
 * the new count. A map with over BODKIN_MARKERS rocks is refused 7, however long the list.
 * Refuses 12, then 13 in the header, 1, then at the first fault met in the raster 13, 14 or 15,
 * then 7; no slot changes then.
 */
BODKIN_ANSWER
struct bodkin_read_map bodkin_read(const uint8_t *file, size_t file_len, struct bodkin_marker *list,
                                   size_t lent);

/*
 * Writes the rocks of a cart of this clearance as a PBM map, P4, and hands back the number of bytes
 * written, at most BODKIN_FILE. Bytes past the end stay. A file keeps neither ids nor heights, nor
 * two markers on one crossing: 16 looks at all markers, low ones included.
 * Refuses 1, 3, 16 or 17; then no byte changes.
 */
BODKIN_ANSWER
struct bodkin_wrote_map bodkin_write(const struct bodkin_marker *list, size_t lent, size_t count,
                                     size_t width, size_t height, uint16_t clearance,
                                     uint8_t *out, size_t out_len);

/*
 * Writes a sheet of one sixteen-bit number a crossing as a raw PGM picture, P5, with largest value
 * BODKIN_LARGEST, two bytes a crossing, high byte first, north row first; and hands back the number
 * of bytes written, at most BODKIN_PICTURE. `sheet_len` counts numbers. Bytes past the end stay.
 * Refuses 1, 2 or 17; then no byte changes.
 */
BODKIN_ANSWER
struct bodkin_sheet_written bodkin_write_sheet(const uint16_t *sheet, size_t sheet_len,
                                               size_t width, size_t height, uint8_t *out,
                                               size_t out_len);

/*
 * Reads a raw PGM picture, P5, into a sheet of its size, by crossing number, and hands back width
 * and height. Its largest value is BODKIN_LARGEST, with two bytes a crossing, high byte first, or
 * BODKIN_OLD_LARGEST, with one byte a crossing, whose 255 becomes BODKIN_NO_DISTANCE. `sheet_len`
 * counts numbers. A sheet that is read is only numbers: nothing is said of it against any list.
 * Refuses 12, 13, 1, 18, 2, 14 or 15, in this order; then no byte changes.
 */
BODKIN_ANSWER
struct bodkin_sheet_read bodkin_read_sheet(const uint8_t *file, size_t file_len, uint16_t *sheet,
                                           size_t sheet_len);

/*
 * Entering and clearing with an id of any width: one over 65,535 is refused as document 01 has it,
 * 4 as a new id, for it is no id, and 6 when clearing, for it is not in use. Id 0 is refused so by
 * the calls themselves, on the same occasions, and after the same lower refusals.
 */
BODKIN_ANSWER
static inline struct bodkin_counted bodkin_enter_wide(struct bodkin_marker *list, size_t lent,
                                                      size_t count, size_t width, size_t height,
                                                      uint64_t id, size_t x, size_t y,
                                                      uint16_t marker_height) {
    return bodkin_enter(list, lent, count, width, height, (uint16_t)(id > UINT16_MAX ? 0 : id), x,
                        y, marker_height);
}

BODKIN_ANSWER
static inline struct bodkin_counted bodkin_clear_wide(struct bodkin_marker *list, size_t lent,
                                                      size_t count, size_t width, size_t height,
                                                      uint64_t id) {
    return bodkin_clear(list, lent, count, width, height, (uint16_t)(id > UINT16_MAX ? 0 : id));
}

/* What a refusal says, in words; of 0 "done", and of a number over 19 that it is none. */
static inline const char *bodkin_refusal_text(uint8_t refusal) {
    switch (refusal) {
    case BODKIN_DONE: return "done";
    case BODKIN_BAD_SIZE: return "width or height is 0 or over 256";
    case BODKIN_BAD_SHEET:
        return "a lent sheet is not width times height bytes (of distances: numbers)";
    case BODKIN_BAD_LIST:
        return "count over 8192 or over the list lent, an id 0, ids not rising, or a marker off "
               "the map";
    case BODKIN_BAD_PLACE: return "a place or new marker is off the map, or a new id is 0";
    case BODKIN_ID_IN_USE: return "the id to enter is in use";
    case BODKIN_ID_NOT_IN_USE: return "the id to clear is not in use";
    case BODKIN_NO_SLOT: return "no slot: the markers would pass the list lent or 8192";
    case BODKIN_END_CLOSED: return "an end (home, place, s or d) is closed";
    case BODKIN_NO_DRIVE: return "both ends are open, but there is no shortest drive";
    case BODKIN_SHORT_ROUTE: return "the route buffer is shorter than distance + 1";
    case BODKIN_NOT_ASSURED: return "home is not assured";
    case BODKIN_BAD_LETTERS:
        return "the file does not start with P1 or P4, or the picture with P5";
    case BODKIN_BAD_HEADER:
        return "the header is against the rules or cut short, or a P1 raster has a byte before its "
               "last digit that is neither 0, 1 nor blank";
    case BODKIN_SHORT_RASTER: return "the raster ends early";
    case BODKIN_LONG_RASTER: return "there are bytes after the raster";
    case BODKIN_SHARED_CROSSING: return "two markers stand on one crossing";
    case BODKIN_SHORT_OUTPUT: return "the output is too short for the whole file";
    case BODKIN_BAD_LARGEST: return "the picture's largest value is neither 255 nor 65535";
    case BODKIN_NO_LINES: return "no column and row between the ends are open throughout";
    default: return "no refusal has this number";
    }
}

/* What a reason of a drawn list's fault says, in words; of 0 "accepted". */
static inline const char *bodkin_reason_text(uint8_t reason) {
    switch (reason) {
    case BODKIN_ACCEPTED: return "accepted";
    case BODKIN_WRONG_START: return "wrong start";
    case BODKIN_OFF_THE_MAP: return "off the map";
    case BODKIN_IS_CLOSED: return "closed";
    case BODKIN_NOT_A_NEIGHBOUR: return "not a neighbour";
    case BODKIN_NOT_NEARER: return "not nearer d";
    case BODKIN_ENDED_EARLY: return "list ended early";
    case BODKIN_WENT_ON: return "list went on after d";
    default: return "no reason has this number";
    }
}

#ifdef __cplusplus
}
#endif

#endif
