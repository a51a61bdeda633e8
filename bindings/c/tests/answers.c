/* Prints what the library answers on the examples in every theme and form, for comparing two builds of it. */
#include "examples.h"

#include <stdio.h>

static uint8_t out[1 << 16];

static void print(const char *name, const girzohal_look *look, uint32_t status, const girzohal_answer *a) {
    printf("%s theme %u form %u: %u %zu %zu %zu %zu %zu %u\n", name, look->theme, look->form, status, a->needed, a->array,
           a->index, a->report, a->label, a->cause);
    if (status == GIRZOHAL_DONE) fwrite(out, 1, a->needed, stdout);
}

int main(void) {
    for (size_t at = 0; at < COUNT(examples); at++) {
        const example *e = &examples[at];
        for (uint32_t number = 0; number < 8; number++) {
            girzohal_look look = {number % 4, 4, number / 4 % 2, 80};
            girzohal_answer answer;
            uint32_t status = girzohal_draw(GIRZOHAL_ABI, (const uint8_t *)e->texts, e->texts_len, e->files, e->files_len, e->reports,
                                            e->reports_len, e->labels, e->labels_len, &look, out, sizeof out, &answer);
            print(e->name, &look, status, &answer);
            status = girzohal_document(GIRZOHAL_ABI, (const uint8_t *)e->document, e->document_len, &look, out, sizeof out, &answer);
            print(e->name, &look, status, &answer);
        }
    }
    return 0;
}
