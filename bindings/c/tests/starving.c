/* Allocations that can be made to fail: they replace malloc, calloc and realloc in an archive for tests. */
#include <stdint.h>
#include <stdlib.h>

static __thread int64_t left = -1, asked;

void girzohal_starve(int64_t requests) {
    left = requests;
    asked = 0;
}

int64_t girzohal_asked(void) { return asked; }

static int fails(void) {
    asked++;
    return left >= 0 && left-- == 0;
}

void *girzohal_starving_malloc(size_t size) { return fails() ? NULL : malloc(size); }
void *girzohal_starving_calloc(size_t count, size_t size) { return fails() ? NULL : calloc(count, size); }
void *girzohal_starving_realloc(void *old, size_t size) { return fails() ? NULL : realloc(old, size); }
