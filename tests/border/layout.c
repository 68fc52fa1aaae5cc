/*
 * What C sees at the border, a line each: the size and alignment of every struct, each field's
 * name, offset and size in the order of the offsets; the limits; and every refusal and reason in
 * words. rust/grainbodkin/examples/border.rs prints the same of Rust; tests/border/run compares the
 * two.
 */
#include <stdalign.h>
#include <stdio.h>
#include "grainbodkin.h"

#define STRUCT(name)                                                 \
    printf("%s %zu %zu\n", #name, sizeof(struct bodkin_##name), \
           alignof(struct bodkin_##name))
#define FIELD(name, field)                                                   \
    printf("%s.%s %zu %zu\n", #name, #field, offsetof(struct bodkin_##name, field), \
           sizeof(((struct bodkin_##name *)0)->field))

static void structs(void) {
    STRUCT(marker);
    FIELD(marker, id);
    FIELD(marker, x);
    FIELD(marker, y);
    FIELD(marker, height);
    STRUCT(counted);
    FIELD(counted, refusal);
    FIELD(counted, count);
    STRUCT(labelling);
    FIELD(labelling, refusal);
    FIELD(labelling, rocks);
    FIELD(labelling, shut);
    FIELD(labelling, groups);
    STRUCT(swept);
    FIELD(swept, refusal);
    FIELD(swept, sweeps);
    STRUCT(four);
    FIELD(four, refusal);
    FIELD(four, four);
    STRUCT(assurance);
    FIELD(assurance, refusal);
    FIELD(assurance, assured);
    STRUCT(homeward);
    FIELD(homeward, refusal);
    FIELD(homeward, hops);
    FIELD(homeward, x);
    FIELD(homeward, y);
    FIELD(homeward, a);
    FIELD(homeward, b);
    STRUCT(drove);
    FIELD(drove, refusal);
    FIELD(drove, length);
    STRUCT(checked);
    FIELD(checked, refusal);
    FIELD(checked, reason);
    FIELD(checked, position);
    STRUCT(crossing_lines);
    FIELD(crossing_lines, refusal);
    FIELD(crossing_lines, yes);
    FIELD(crossing_lines, column);
    FIELD(crossing_lines, row);
    STRUCT(read_map);
    FIELD(read_map, refusal);
    FIELD(read_map, width);
    FIELD(read_map, height);
    FIELD(read_map, count);
    STRUCT(wrote_map);
    FIELD(wrote_map, refusal);
    FIELD(wrote_map, bytes);
    STRUCT(sheet_written);
    FIELD(sheet_written, refusal);
    FIELD(sheet_written, bytes);
    STRUCT(sheet_read);
    FIELD(sheet_read, refusal);
    FIELD(sheet_read, width);
    FIELD(sheet_read, height);
}

int main(void) {
    structs();
    printf("side %d\nmarkers %d\n", BODKIN_SIDE, BODKIN_MARKERS);
    printf("no distance %d\ntallest %d\n", BODKIN_NO_DISTANCE, BODKIN_TALLEST);
    printf("crossings %d\nroute %d\nfile %d\n", BODKIN_CROSSINGS, BODKIN_ROUTE, BODKIN_FILE);
    printf("picture %d\nlargest %d\n", BODKIN_PICTURE, BODKIN_LARGEST);
    printf("old largest %d\n", BODKIN_OLD_LARGEST);
    printf("stack %d\n", BODKIN_STACK);
    for (int number = BODKIN_BAD_SIZE; number <= BODKIN_NO_LINES; number++)
        printf("refused %d: %s\n", number, bodkin_refusal_text((uint8_t)number));
    for (int number = BODKIN_WRONG_START; number <= BODKIN_WENT_ON; number++)
        printf("reason %d: %s\n", number, bodkin_reason_text((uint8_t)number));
    return 0;
}
