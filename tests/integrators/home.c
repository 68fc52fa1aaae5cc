/* Reads a map, enters and clears a stone, hops home and drives back. */
#include <stdio.h>
#include "grainbodkin.h"

/* The cart that goes home has 20 cm of ground clearance. */
enum { SLOTS = 100, CLEARANCE = 20 };

/* Rocks on (2, 2) and (1, 1). */
static const char file[] = "P1\n5 4\n00000\n00100\n01000\n00000\n";
static struct bodkin_marker list[SLOTS];
static uint8_t labels[BODKIN_CROSSINGS], region[BODKIN_CROSSINGS];
static uint16_t route[BODKIN_ROUTE];

static int refused(uint8_t number) {
    printf("refused %d: %s\n", number, bodkin_refusal_text(number));
    return 1;
}

int main(void) {
    struct bodkin_read_map map = bodkin_read((const uint8_t *)file, sizeof file - 1, list, SLOTS);
    if (map.refusal) return refused(map.refusal);
    size_t w = map.width, h = map.height, count = map.count;

    struct bodkin_labelling numbers =
        bodkin_label(list, SLOTS, count, w, h, CLEARANCE, labels, w * h);
    if (numbers.refusal) return refused(numbers.refusal);
    printf("%zu rocks, %zu shut, %zu groups\n", numbers.rocks, numbers.shut, numbers.groups);

    /* A stone of 30 cm on home's column takes the assurance, but not from a cart of 30 cm ground
       clearance; cleared, it gives it back. Home is (0, 0), the place (4, 3). */
    struct bodkin_counted counted = bodkin_enter(list, SLOTS, count, w, h, 3, 0, 2, 30);
    if (counted.refusal) return refused(counted.refusal);
    count = counted.count;
    struct bodkin_assurance home =
        bodkin_assured(list, SLOTS, count, w, h, CLEARANCE, 0, 0, 4, 3, labels, w * h);
    if (home.refusal) return refused(home.refusal);
    printf("assured: %s\n", home.assured ? "yes" : "no");
    home = bodkin_assured(list, SLOTS, count, w, h, 30, 0, 0, 4, 3, labels, w * h);
    if (home.refusal) return refused(home.refusal);
    printf("for a higher cart: %s\n", home.assured ? "yes" : "no");
    counted = bodkin_clear(list, SLOTS, count, w, h, 3);
    if (counted.refusal) return refused(counted.refusal);
    count = counted.count;

    /* The first of the hops, the east-west one where there are two, until the answer is "there". */
    struct bodkin_homeward hop = {.hops = 1, .x = 4, .y = 3};
    while (hop.hops > 0) {
        printf("(%zu, %zu)\n", hop.x, hop.y);
        hop = bodkin_hop(list, SLOTS, count, w, h, CLEARANCE, 0, 0, hop.x, hop.y, labels, w * h);
        if (hop.refusal) return refused(hop.refusal);
    }

    uint32_t state = 0;
    struct bodkin_drove drove =
        bodkin_drive(list, SLOTS, count, w, h, CLEARANCE, 0, 0, 4, 3, labels, w * h, region, w * h,
                     route, BODKIN_ROUTE, &state);
    if (drove.refusal) return refused(drove.refusal);
    for (size_t i = 0; i < drove.length; i++) printf("%d ", route[i]);
    printf("then state %08x\n", (unsigned)state);
    return 0;
}
