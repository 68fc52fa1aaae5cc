/*
 * Measures how many bytes of stack each call takes on inputs that work it hard, and compares with
 * what docs/INTEGRATORS.md holds it to. The page's table comes on standard input, a call and a
 * number a line.
 *
 * Each call runs on a stack of its own, painted beforehand: the lowest byte that changed tells its
 * depth. What an empty call takes there is the caller's own and is taken off.
 *
 * Each call is the first of a process, and then made again: where the loader binds memset and
 * memcpy at their first use, it does so on the call's stack. So this program must not use the two
 * before; it paints and fills byte by byte, by volatile pointers, lest the compiler put them in.
 */
#define _GNU_SOURCE
#include <stdio.h>
#include <stdlib.h>
#include <string.h>
#include <sys/wait.h>
#include <ucontext.h>
#include <unistd.h>
#include "grainbodkin.h"

enum { ROOM = 8 << 20, PAINT = 0xA5, SIDE = BODKIN_SIDE, CROSSINGS = SIDE * SIDE, FILE_ROOM = 1 << 20, CLEARANCE = 20 };

static unsigned char stack[ROOM];
static ucontext_t here, there;
static struct bodkin_marker list[BODKIN_MARKERS + 1], freed[BODKIN_MARKERS];
static size_t count;
static uint8_t labels[CROSSINGS], region[CROSSINGS], out[BODKIN_PICTURE];
static uint16_t ways[4][CROSSINGS];
static uint8_t file[FILE_ROOM];
static size_t file_len;
static uint16_t route[2 * SIDE], drawn[2 * SIDE];
static size_t drawn_len;
static uint32_t state;
static int refusal;

/* The calls of the page's table, and what each is held to. */
static struct { char call[16]; size_t bytes; } table[32];
static size_t table_len;

#define LIST list, BODKIN_MARKERS + 1, count, SIDE, SIDE
#define ASKED LIST, CLEARANCE
#define ENDS 0, 0, SIDE - 1, SIDE - 1
#define LABELS labels, CROSSINGS

static void nothing(void) { refusal = 0; }
static void enter(void) { refusal = bodkin_enter(LIST, 65535, 0, 0, BODKIN_TALLEST).refusal; }
static void clear(void) { refusal = bodkin_clear(LIST, 1).refusal; }
static void label(void) { refusal = bodkin_label(ASKED, LABELS).refusal; }
static void sweeps(void) { refusal = bodkin_sweeps(ASKED, LABELS).refusal; }
static void distances(void) { refusal = bodkin_distances(ASKED, 0, 0, LABELS).refusal; }
static void measure(void) {
    refusal = bodkin_measure(ASKED, LABELS, ways[0], CROSSINGS, ways[1], CROSSINGS, ways[2], CROSSINGS, ways[3], CROSSINGS);
}
static void assured(void) { refusal = bodkin_assured(ASKED, ENDS, LABELS).refusal; }
static void hop(void) { refusal = bodkin_hop(ASKED, ENDS, LABELS).refusal; }
static void make_region(void) { refusal = bodkin_region(ASKED, ENDS, LABELS, region, CROSSINGS); }
static void drive(void) { refusal = bodkin_drive(ASKED, ENDS, LABELS, region, CROSSINGS, route, 2 * SIDE, &state).refusal; }
static void check(void) { refusal = bodkin_check(ASKED, ENDS, LABELS, drawn, drawn_len).refusal; }
static void lines(void) { refusal = bodkin_lines(ASKED, ENDS, LABELS).refusal; }
static void lines_drive(void) { refusal = bodkin_lines_drive(ASKED, ENDS, LABELS, region, CROSSINGS, route, 2 * SIDE, &state).refusal; }
static void read_map(void) { refusal = bodkin_read(file, file_len, freed, BODKIN_MARKERS).refusal; }
static void write_map(void) { refusal = bodkin_write(ASKED, out, sizeof out).refusal; }
static void write_sheet(void) { refusal = bodkin_write_sheet(ways[0], CROSSINGS, SIDE, SIDE, out, sizeof out).refusal; }
static void read_sheet(void) { refusal = bodkin_read_sheet(file, file_len, ways[0], CROSSINGS).refusal; }

/* The bytes between the stack's top and the lowest one that the call changed. */
static size_t depth(void (*call)(void)) {
    for (volatile unsigned char *p = stack; p < stack + ROOM; p++) *p = PAINT;
    getcontext(&there);
    there.uc_stack.ss_sp = stack;
    there.uc_stack.ss_size = ROOM;
    there.uc_link = &here;
    makecontext(&there, call, 0);
    swapcontext(&here, &there);
    size_t low = 0;
    while (low < ROOM && stack[low] == PAINT) low++;
    return ROOM - low;
}

static size_t used(void (*call)(void)) {
    size_t own = depth(nothing), all = depth(call);
    return all > own ? all - own : 0;
}

/*
 * Rocks on every eighth diagonal of the map's middle, so that labelling has all of it to shut, and
 * both ends stay open.
 */
static void rocks(void) {
    count = 0;
    for (size_t y = 2; y < SIDE - 2; y++)
        for (size_t x = 2; x < SIDE - 2; x++)
            if ((x + y) % 8 == 0) {
                list[count] = (struct bodkin_marker){.id = count + 1, .x = x, .y = y, .height = CLEARANCE + 1};
                count++;
            }
}

/*
 * A drawn list that is looked at to its end: east along the south edge, north along the east edge.
 */
static void draw(void) {
    drawn_len = 0;
    for (size_t x = 0; x < SIDE; x++) drawn[drawn_len++] = (uint16_t)x;
    for (size_t y = 1; y < SIDE; y++) drawn[drawn_len++] = (uint16_t)(y * SIDE + SIDE - 1);
}

/* Puts so many bytes at the end of the file. */
static void append(const void *bytes, size_t n) {
    const unsigned char *from = bytes;
    for (volatile uint8_t *to = file + file_len; n > 0; n--, file_len++) *to++ = *from++;
}

/* A P1 map 1 by 1 whose header has so many comments, the shortest there are. */
static void comments(size_t n) {
    file_len = 0;
    append("P1 ", 3);
    for (size_t i = 0; i < n; i++) append("#\n", 2);
    append("1 1 1", 5);
}

/* A P1 or P4 map 256 by 256: of each eight crossings one a rock, or all. */
static void whole(char letter, int every) {
    file_len = 0;
    append(letter == '1' ? "P1 256 256 " : "P4 256 256 ", 11);
    for (size_t y = 0; y < SIDE; y++)
        for (size_t x = 0; x < SIDE; x += letter == '1' ? 1 : 8) {
            uint8_t digit = every || (x + y) % 8 == 7 ? '1' : '0', bits = every ? 0xFF : (uint8_t)(1 << y % 8);
            append(letter == '1' ? &digit : &bits, 1);
        }
}

/* A P5 picture 256 by 256 of either kind, whose header has so many comments. */
static void picture(size_t n, int old) {
    file_len = 0;
    append("P5 ", 3);
    for (size_t i = 0; i < n; i++) append("#\n", 2);
    append(old ? "256 256 255 " : "256 256 65535 ", old ? 12 : 14);
    append(ways, old ? CROSSINGS : 2 * CROSSINGS);
}

static void read_table(void) {
    while (table_len < sizeof table / sizeof *table && scanf("%15s %zu", table[table_len].call, &table[table_len].bytes) == 2) table_len++;
}

/* What the page holds a call to; nothing, where it does not name it. */
static size_t held_to(const char *call) {
    for (size_t i = 0; i < table_len; i++)
        if (strcmp(table[i].call, call) == 0) return table[i].bytes;
    return 0;
}

static int failed, loaded;

/* What a child process ends with. */
enum { GOOD, BAD, GOOD_AND_LOADED };

/*
 * The call ends with this number, and takes no more stack than the page says, the first time too.
 */
static int compare_here(int number, const char *name, void (*call)(void), const char *with) {
    size_t most = held_to(name);
    rocks();
    size_t first = used(call);
    int good = refusal == number && first <= most;
    rocks();
    size_t again = used(call);
    good = good && refusal == number && again <= most;
    printf("%s: %-12s%-22s %8zu bytes of stack, %zu the first time, at most %zu\n", good ? "ok" : "FAILED", name, with, again, first, most);
    fflush(stdout);
    return !good ? BAD : first > again ? GOOD_AND_LOADED : GOOD;
}

static void compare_at(int number, const char *name, void (*call)(void), const char *with) {
    int status = BAD;
    fflush(stdout);
    pid_t child = fork();
    if (child == 0) _exit(compare_here(number, name, call, with));
    if (child < 0 || waitpid(child, &status, 0) < 0 || !WIFEXITED(status) || WEXITSTATUS(status) == BAD) failed++;
    else loaded += WEXITSTATUS(status) == GOOD_AND_LOADED;
}

static void compare(const char *name, void (*call)(void), const char *with) { compare_at(BODKIN_DONE, name, call, with); }

static void compare_reading(void) {
    for (size_t n = 0; n <= 32000; n = n ? n * 20 : 4) {
        char with[32];
        snprintf(with, sizeof with, "%zu comments", n);
        comments(n);
        compare("read", read_map, with);
    }
    for (char letter = '1'; letter <= '4'; letter += 3) {
        whole(letter, 0);
        compare("read", read_map, letter == '1' ? "P1, 8,192 rocks" : "P4, 8,192 rocks");
        whole(letter, 1);
        compare_at(BODKIN_NO_SLOT, "read", read_map, letter == '1' ? "P1, 65,536 rocks" : "P4, 65,536 rocks");
    }
}

int main(void) {
    read_table();
    compare("enter", enter, "");
    compare("clear", clear, "");
    compare("label", label, "");
    compare("sweeps", sweeps, "");
    compare("distances", distances, "");
    compare("measure", measure, "");
    compare("assured", assured, "");
    compare("hop", hop, "");
    compare("region", make_region, "");
    compare("drive", drive, "");
    draw();
    compare("check", check, "");
    compare("lines", lines, "");
    compare("lines_drive", lines_drive, "");
    compare("write", write_map, "");
    compare_reading();
    compare("write_sheet", write_sheet, "");
    picture(0, 0);
    compare("read_sheet", read_sheet, "no comments");
    picture(0, 1);
    compare("read_sheet", read_sheet, "an old picture");
    picture(32000, 0);
    compare("read_sheet", read_sheet, "32000 comments");
    if (!loaded) printf("FAILED: no call was seen to take more the first time\n");
    return failed != 0 || !loaded;
}
