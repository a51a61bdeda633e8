/* girzohal_sources: the examples in each unit, drawn again and again; places that aren't there; parts without a report; and memory of
 * the caller's that fails. */
#include "build.h"
#include "check.h"

static const girzohal_look ascii = {GIRZOHAL_NONE, 4, GIRZOHAL_DRAWING, 80};
static const char *const units[] = {"bytes", "characters", "UTF-16"};

static int wrote(const girzohal_sources *it, uint32_t status, const char *text, size_t len) {
    return status == GIRZOHAL_DONE && it->out_len == len && it->answer.needed == len && memcmp(it->out, text, len) == 0
        && it->out[len] == 0;
}

static void try_examples(void) {
    for (uint32_t unit = 0; unit < 3; unit++) {
        for (size_t at = 0; at < COUNT(examples); at++) {
            const example *e = &examples[at];
            girzohal_sources it = {0};
            it.unit = unit;
            add_files(e, &it);
            size_t kept = it.texts_len;
            for (int turn = 0; turn < 3; turn++) {
                add_reports(e, &it);
                check(e->name, units[unit], wrote(&it, girzohal_sources_draw(&it, &ascii), e->drawing, e->drawing_len));
                girzohal_sources_clear(&it);
                check(e->name, "only the files stay", it.texts_len == kept && it.reports_len == 0 && it.labels_len == 0);
            }
            check(e->name, "no reports are drawn as nothing", wrote(&it, girzohal_sources_draw(&it, NULL), "", 0));
            uint32_t status = girzohal_sources_document(&it, e->document, e->document_len, &ascii);
            check(e->name, "a document is drawn", wrote(&it, status, e->drawing, e->drawing_len));
            add_reports(e, &it);
            status = girzohal_sources_json(&it);
            check(e->name, "JSON", status == GIRZOHAL_DONE && it.out[0] == '{' && it.out[it.out_len - 1] == '\n');
            girzohal_sources_free(&it);
        }
    }
}

/* files that are added between reports, and a label at the end of each */
static void try_files_between(void) {
    girzohal_sources it = {0};
    it.unit = GIRZOHAL_UTF16;
    for (uint32_t file = 0; file < 300; file++) {
        check("a file", "has the next index", girzohal_sources_add(&it, "n.txt", "\360\237\221\215\303\251x") == file);
        girzohal_sources_report(&it, file, GIRZOHAL_WARNING, "m\303\251");
        girzohal_sources_label(&it, 2, 3, "here");
        girzohal_sources_label(&it, 4, 4, NULL);
    }
    check("files between reports", "are drawn", girzohal_sources_draw(&it, NULL) == GIRZOHAL_DONE);
    girzohal_sources_clear(&it);
    girzohal_sources_report(&it, 299, GIRZOHAL_WARNING, "m");
    girzohal_sources_label(&it, 0, 4, "all");
    check("the last file", "is drawn again", girzohal_sources_draw(&it, NULL) == GIRZOHAL_DONE);
    girzohal_sources_free(&it);
}

/* every offset of a source that is longer than the distance of the marks */
static void try_places(void) {
    enum { LONG = 9000 };
    static const char *const parts[] = {"a", "\303\251", "\346\227\245", "\360\237\221\215"};
    static char source[LONG + 8];
    size_t len = 0, next = 1;
    while (len < LONG) {
        next = next * 1103515245 + 12345;
        const char *part = parts[next / 65536 % 4];
        memcpy(source + len, part, strlen(part));
        len += strlen(part);
    }
    for (uint32_t unit = 1; unit < 3; unit++) {
        static uint32_t byte_of[2 * LONG];
        girzohal_sources it = {0};
        it.unit = unit;
        girzohal_sources_add(&it, "first", source + 1023);
        girzohal_sources_add_bytes(&it, "\303\251", 2, source, len);
        girzohal_sources_add(&it, "last", "");
        memset(byte_of, 0xFF, sizeof byte_of);
        size_t counted = 0;
        for (size_t at = 0; at < len; at++) {
            if (((unsigned char)source[at] & 0xC0) == 0x80) continue;
            byte_of[counted] = (uint32_t)at;
            counted += unit == GIRZOHAL_UTF16 && (unsigned char)source[at] >= 0xF0 ? 2 : 1;
        }
        byte_of[counted] = (uint32_t)len;
        int same = 1;
        for (size_t at = 0; at < 2 * LONG; at++) same = same && girzohal_byte_of_(&it, 1, at) == byte_of[at];
        check("every offset", unit == 1 ? "is its byte by characters" : "is its byte by UTF-16", same);
        check("an empty source", "has one place", girzohal_byte_of_(&it, 2, 0) == 0 && girzohal_byte_of_(&it, 2, 1) == UINT32_MAX);
        girzohal_sources_free(&it);
    }
}

static void try_refusals(void) {
    struct {
        uint32_t unit;
        size_t start, end;
        uint32_t cause;
    } rows[] = {
        {GIRZOHAL_BYTES, 1, 4, GIRZOHAL_START_NO_PLACE},      {GIRZOHAL_BYTES, 0, SIZE_MAX, GIRZOHAL_END_NO_PLACE},
        {GIRZOHAL_CHARACTERS, 0, 3, GIRZOHAL_END_NO_PLACE},   {GIRZOHAL_CHARACTERS, 2, 1, GIRZOHAL_END_BEFORE_START},
        {GIRZOHAL_CHARACTERS, SIZE_MAX, SIZE_MAX, GIRZOHAL_START_NO_PLACE},
        {GIRZOHAL_UTF16, 1, 2, GIRZOHAL_START_NO_PLACE},      {GIRZOHAL_UTF16, 0, 4, GIRZOHAL_END_NO_PLACE},
        {GIRZOHAL_UTF16, 0, 1, GIRZOHAL_END_NO_PLACE},        {GIRZOHAL_UTF16, 3, 2, GIRZOHAL_END_BEFORE_START},
    };
    for (size_t at = 0; at < COUNT(rows); at++) {
        girzohal_sources it = {0};
        it.unit = rows[at].unit;
        girzohal_sources_add(&it, "a.txt", "\360\237\221\215x");
        girzohal_sources_report(&it, 0, GIRZOHAL_ERROR, "right");
        girzohal_sources_report(&it, 0, GIRZOHAL_ERROR, "wrong");
        girzohal_sources_label(&it, 0, 0, NULL);
        girzohal_sources_label(&it, rows[at].start, rows[at].end, "x");
        uint32_t status = girzohal_sources_draw(&it, NULL);
        check("a label", "is refused by its index",
              status == GIRZOHAL_REFUSED && it.answer.cause == rows[at].cause && it.answer.report == 1
                  && it.answer.label == 1 && it.out_len == 0);
        girzohal_sources_free(&it);
    }
}

static int is_wrong(girzohal_sources *it, size_t array, size_t index) {
    int is = girzohal_sources_draw(it, NULL) == GIRZOHAL_WRONG_ARGUMENT && it->answer.array == array && it->answer.index == index;
    girzohal_sources_free(it);
    return is;
}

static void try_wrong(void) {
    girzohal_sources it = {0};
    check("nothing at all", "is drawn as nothing", wrote(&it, girzohal_sources_draw(&it, NULL), "", 0));
    girzohal_sources_help(&it, "h");
    check("a help without a report", "is wrong", is_wrong(&it, GIRZOHAL_REPORTS, 0));
    girzohal_sources_label(&it, 0, 0, NULL);
    girzohal_sources_add(&it, "a", "b");
    girzohal_sources_clear(&it);
    girzohal_sources_report(&it, 0, GIRZOHAL_ERROR, "m");
    check("a dropped part", "is no more wrong", girzohal_sources_draw(&it, NULL) == GIRZOHAL_DONE);
    girzohal_sources_report(&it, 1, GIRZOHAL_ERROR, "m");
    girzohal_sources_label(&it, 0, 0, NULL);
    check("a file that isn't there", "is wrong", is_wrong(&it, GIRZOHAL_REPORTS, 1));
    girzohal_sources_add(&it, "a", NULL);
    it.unit = GIRZOHAL_CHARACTERS;
    check("a missing source", "is wrong", is_wrong(&it, GIRZOHAL_FILES, 0));
    girzohal_sources_add(&it, "a", "b");
    girzohal_sources_report(&it, 0, GIRZOHAL_ERROR, NULL);
    check("a missing message", "is wrong", is_wrong(&it, GIRZOHAL_REPORTS, 0));
    girzohal_sources_add(&it, "a", "b");
    girzohal_sources_report(&it, 0, GIRZOHAL_ERROR, "m");
    girzohal_sources_code(&it, "", NULL);
    check("an empty code", "is wrong", is_wrong(&it, GIRZOHAL_REPORTS, 0));
    girzohal_sources_add_bytes(&it, "a", 1, "\377", 1);
    check("no UTF-8", "is wrong", is_wrong(&it, GIRZOHAL_TEXTS, 0));
    girzohal_look look = {GIRZOHAL_NONE, 0, GIRZOHAL_DRAWING, 80};
    check("tab stops", "are wrong", girzohal_sources_draw(&it, &look) == GIRZOHAL_WRONG_ARGUMENT && it.answer.array == GIRZOHAL_LOOK);
    check("NULL", "is no document", girzohal_sources_document(&it, NULL, 9, NULL) == GIRZOHAL_NO_DOCUMENT);
    girzohal_sources_free(&it);
}

/* ---- memory of the caller's */

typedef struct {
    long left, asked, live;
} arena;

static void *resize(void *context, void *old, size_t size) {
    arena *it = (arena *)context;
    if (size == 0) {
        it->live--;
        free(old);
        return NULL;
    }
    it->asked++;
    if (it->left >= 0 && it->left-- == 0) return NULL;
    void *made = realloc(old, size);
    it->live += made != NULL && old == NULL;
    return made;
}

static void try_memory(void) {
    for (size_t at = 0; at < COUNT(examples); at++) {
        const example *e = &examples[at];
        arena memory = {-1, 0, 0};
        long asked = 1, failures = 0;
        int holds = 1;
        for (long left = -1; left < asked; left++) {
            girzohal_sources it = {0};
            it.unit = GIRZOHAL_UTF16;
            it.resize = resize;
            it.context = &memory;
            memory.left = left;
            memory.asked = 0;
            add_files(e, &it);
            add_reports(e, &it);
            uint32_t status = girzohal_sources_draw(&it, &ascii);
            if (left < 0) asked = memory.asked;
            failures += status == GIRZOHAL_OUT_OF_MEMORY;
            holds = holds && (left < 0 ? wrote(&it, status, e->drawing, e->drawing_len)
                                       : status == GIRZOHAL_OUT_OF_MEMORY && it.out_len == 0);
            memory.left = -1;
            girzohal_sources_free(&it);
            add_files(e, &it);
            add_reports(e, &it);
            holds = holds && wrote(&it, girzohal_sources_draw(&it, &ascii), e->drawing, e->drawing_len);
            girzohal_sources_free(&it);
            holds = holds && memory.live == 0;
        }
        check(e->name, "memory of the caller's", holds && failures == asked && asked > 4);
    }
}

int main(void) {
    try_examples();
    try_files_between();
    try_places();
    try_refusals();
    try_wrong();
    try_memory();
    return summary("sources");
}
