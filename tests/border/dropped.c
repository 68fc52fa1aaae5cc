/* Drops a call's answer and one of the inline forms'. A compiler that is told to refuses both. */
#include "grainbodkin.h"

void drop(struct bodkin_marker *list, uint8_t *labels) {
    bodkin_label(list, 1, 0, 1, 1, 0, labels, 1);
    bodkin_clear_wide(list, 1, 0, 1, 1, 65537);
}
