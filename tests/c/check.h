/*
 * What the test programs in C share: each expectation prints a line, and the last line tells
 * whether all held. A line is written out at once, so that a program that ends by a signal leaves
 * what it had printed.
 */
#ifndef CHECK_H
#define CHECK_H

#include <stdbool.h>
#include <stdio.h>

static int failed;

static void expect(bool yes, const char *what) {
    printf("%s: %s\n", yes ? "ok" : "FAILED", what);
    fflush(stdout);
    failed += !yes;
}

static int verdict(const char *name) {
    printf("%s: %s\n", name, failed ? "FAILED" : "all ok");
    return failed != 0;
}

#endif
