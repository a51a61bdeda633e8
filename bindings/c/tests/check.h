/* Counts what was tried. */
#ifndef GIRZOHAL_CHECK_H
#define GIRZOHAL_CHECK_H
#include <stdio.h>

static int passed, failed;

static void check(const char *what, const char *of, int holds) {
    if (holds) {
        passed++;
    } else {
        failed++;
        printf("FAILED: %s: %s\n", what, of);
    }
}

static int summary(const char *program) {
    printf("%s: %d passed, %d failed\n", program, passed, failed);
    return failed != 0;
}
#endif
