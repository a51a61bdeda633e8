/* The three calls by which the library allocates, for aarch64: the kit has them for x86-64 only. */
#include <stdint.h>
#include <stdlib.h>

/* What a call returns in two registers: whether there was memory, and where. */
typedef struct {
    uint64_t ok;
    void *at;
} allocation;

static char nothing;

static allocation allocated(void *at) {
    allocation it = {at != NULL, at != NULL ? at : &nothing};
    return it;
}

allocation rattle_alloc(size_t size, size_t align) { return allocated(malloc(size != 0 ? size : align)); }

allocation rattle_realloc(void *old, size_t old_size, size_t size, size_t align) {
    (void)old_size;
    return allocated(realloc(old, size != 0 ? size : align));
}

void rattle_dealloc(void *at) { free(at); }
