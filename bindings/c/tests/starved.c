/* Each allocation fails in turn: the status is out of memory with the buffer unchanged, or 0 with the right drawing, if the library
 * went on without the memory. Nothing stays allocated. Link with --wrap=malloc,--wrap=realloc,--wrap=calloc,--wrap=free. */
#include "build.h"
#include "check.h"

#include <stdlib.h>

static long left = -1, asked, live;
void *__real_malloc(size_t size);
void *__real_calloc(size_t count, size_t size);
void *__real_realloc(void *old, size_t size);
void __real_free(void *old);

static int fails(void) {
    asked++;
    return left >= 0 && left-- == 0;
}

void *__wrap_malloc(size_t size) {
    void *made = fails() ? NULL : __real_malloc(size);
    live += made != NULL;
    return made;
}

void *__wrap_calloc(size_t count, size_t size) {
    void *made = fails() ? NULL : __real_calloc(count, size);
    live += made != NULL;
    return made;
}

void *__wrap_realloc(void *old, size_t size) {
    void *made = fails() ? NULL : __real_realloc(old, size);
    live += made != NULL && old == NULL;
    return made;
}

void __wrap_free(void *old) {
    live -= old != NULL;
    __real_free(old);
}

static const girzohal_look looks[] = {{GIRZOHAL_NONE, 4, GIRZOHAL_DRAWING, 80}, {GIRZOHAL_NONE, 4, GIRZOHAL_JSON, 80}};
static uint8_t out[8192], right[8192], before[8192];

static uint32_t call(const example *e, int is_document, const girzohal_look *look, girzohal_answer *answer) {
    if (is_document)
        return girzohal_document(GIRZOHAL_ABI, (const uint8_t *)e->document, e->document_len, look, out, sizeof out, answer);
    return girzohal_draw(GIRZOHAL_ABI, (const uint8_t *)e->texts, e->texts_len, e->files, e->files_len, e->reports, e->reports_len,
                         e->labels, e->labels_len, look, out, sizeof out, answer);
}

static void starve(const example *e, int is_document, const girzohal_look *look) {
    girzohal_answer answer;
    long failures = 0, successes = 0;
    left = -1;
    asked = 0;
    int holds = call(e, is_document, look, &answer) == GIRZOHAL_DONE && live == 0;
    size_t needed = answer.needed;
    long all = asked;
    memcpy(right, out, sizeof out);
    for (long at = 0; holds && at < all; at++) {
        memcpy(out, before, sizeof out);
        left = at;
        uint32_t status = call(e, is_document, look, &answer);
        left = -1;
        int starved = status == GIRZOHAL_OUT_OF_MEMORY && answer.needed == 0 && memcmp(out, before, sizeof out) == 0;
        int drew = status == GIRZOHAL_DONE && answer.needed == needed && memcmp(out, right, needed) == 0
            && memcmp(out + needed, before, sizeof out - needed) == 0;
        holds = (starved || drew) && live == 0;
        failures += starved;
        successes += drew;
    }
    check(e->name, look->form == GIRZOHAL_JSON ? "JSON" : "a drawing", holds && failures > 0 && failures + successes == all);
}

/* the same with girzohal_sources, whose own requests fail too */
static void starve_sources(const example *e) {
    long all = 0, failures = 0, successes = 0;
    int holds = 1;
    for (long at = -1; at < all; at++) {
        girzohal_sources it = {0};
        it.unit = GIRZOHAL_CHARACTERS;
        left = at;
        asked = 0;
        add_files(e, &it);
        add_reports(e, &it);
        uint32_t status = girzohal_sources_draw(&it, &looks[0]);
        left = -1;
        if (at < 0) all = asked;
        int starved = status == GIRZOHAL_OUT_OF_MEMORY && it.out_len == 0 && it.answer.needed == 0;
        int drew = status == GIRZOHAL_DONE && it.out_len == e->drawing_len && memcmp(it.out, e->drawing, e->drawing_len) == 0;
        girzohal_sources_free(&it);
        holds = holds && (at < 0 ? drew : starved || drew) && live == 0;
        failures += starved;
        successes += at >= 0 && drew;
    }
    check(e->name, "sources", holds && failures > 0 && failures + successes == all);
}

int main(void) {
    memset(before, 0xAA, sizeof before);
    for (size_t at = 0; at < COUNT(examples); at++)
        for (size_t look = 0; look < COUNT(looks); look++)
            for (int is_document = 0; is_document < 2; is_document++) starve(&examples[at], is_document, &looks[look]);
    for (size_t at = 0; at < COUNT(examples); at++) starve_sources(&examples[at]);
    return summary("starved");
}
