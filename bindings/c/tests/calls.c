/* Every export on the examples, on wrong and hostile arguments, and in eight threads at once. */
#include "check.h"
#include "examples.h"

#include <pthread.h>
#include <stdlib.h>

#define ROOM 8192
static const girzohal_look ascii = {GIRZOHAL_NONE, 4, GIRZOHAL_DRAWING, 80};
static const girzohal_look json = {GIRZOHAL_NONE, 4, GIRZOHAL_JSON, 80};

/* ---- what a call leaves */

typedef struct {
    uint32_t status;
    girzohal_answer answer;
    uint8_t out[ROOM];
} reply;

static void begin(reply *it) {
    memset(it->out, 0xAA, sizeof it->out);
    memset(&it->answer, 0x55, sizeof it->answer);
}

static int untouched_from(const reply *it, size_t start) {
    for (size_t at = start; at < ROOM; at++)
        if (it->out[at] != 0xAA) return 0;
    return 1;
}

static int answers(const reply *it, size_t needed, size_t array, size_t index) {
    const girzohal_answer *a = &it->answer;
    return a->needed == needed && a->array == array && a->index == index;
}

static int refuses(const reply *it, uint32_t cause, size_t report, size_t label, uint64_t first, uint64_t second) {
    const girzohal_answer *a = &it->answer;
    return it->status == GIRZOHAL_REFUSED && untouched_from(it, 0) && answers(it, 0, 0, 0) && a->cause == cause
        && a->report == report && a->label == label && a->first == first && a->second == second;
}

static int is_wrong(const reply *it, size_t array, size_t index) {
    const girzohal_answer *a = &it->answer;
    return it->status == GIRZOHAL_WRONG_ARGUMENT && untouched_from(it, 0) && answers(it, 0, array, index)
        && a->cause == 0 && a->report == 0 && a->label == 0 && a->first == 0 && a->second == 0;
}

static int refuses_document(const reply *it) {
    const girzohal_answer *a = &it->answer;
    return it->status == GIRZOHAL_NO_DOCUMENT && untouched_from(it, 0) && answers(it, 0, 0, 0) && a->cause == 0
        && a->report == 0 && a->label == 0 && a->first == 0 && a->second == 0;
}

static int wrote(const reply *it, const char *text, size_t len) {
    return it->status == GIRZOHAL_DONE && answers(it, len, 0, 0) && memcmp(it->out, text, len) == 0
        && untouched_from(it, len);
}

static int is_small(const reply *it, size_t needed) {
    return it->status == GIRZOHAL_BUFFER_TOO_SMALL && answers(it, needed, 0, 0) && untouched_from(it, 0);
}

/* ---- the examples */

static void draw_example(const example *e, const girzohal_look *look, size_t room, reply *it) {
    begin(it);
    it->status = girzohal_draw(GIRZOHAL_ABI, (const uint8_t *)e->texts, e->texts_len, e->files, e->files_len, e->reports,
                               e->reports_len, e->labels, e->labels_len, look, it->out, room, &it->answer);
}

static void try_examples(void) {
    static reply drawn;
    for (size_t at = 0; at < COUNT(examples); at++) {
        const example *e = &examples[at];
        size_t len = e->drawing_len;
        draw_example(e, &ascii, ROOM, &drawn);
        check(e->name, "arrays are drawn as the example", wrote(&drawn, e->drawing, len));
        draw_example(e, &ascii, len, &drawn);
        check(e->name, "a buffer that just fits", wrote(&drawn, e->drawing, len));
        for (size_t room = 0; room < len; room += 1 + room / 8) {
            draw_example(e, &ascii, room, &drawn);
            check(e->name, "a buffer that is too small", is_small(&drawn, len));
        }
        draw_example(e, &ascii, len - 1, &drawn);
        check(e->name, "a buffer that is too small by one", is_small(&drawn, len));
        draw_example(e, &json, ROOM, &drawn);
        check(e->name, "JSON is a line for each report",
              drawn.status == GIRZOHAL_DONE && drawn.out[0] == '{' && drawn.out[drawn.answer.needed - 1] == '\n');
    }
}

/* ---- documents */

static void draw_document(const char *document, size_t len, const girzohal_look *look, size_t room, reply *it) {
    begin(it);
    it->status = girzohal_document(GIRZOHAL_ABI, (const uint8_t *)document, len, look, it->out, room, &it->answer);
}

static void try_documents(void) {
    static reply of_arrays, drawn;
    for (size_t at = 0; at < COUNT(examples); at++) {
        const example *e = &examples[at];
        size_t len = e->drawing_len;
        draw_document(e->document, e->document_len, &ascii, ROOM, &drawn);
        check(e->name, "the document is drawn as the example", wrote(&drawn, e->drawing, len));
        draw_document(e->document, e->document_len, &ascii, len, &drawn);
        check(e->name, "a buffer that just fits the document's", wrote(&drawn, e->drawing, len));
        draw_document(e->document, e->document_len, &ascii, 0, &drawn);
        check(e->name, "a buffer of no bytes for a document", is_small(&drawn, len));
        draw_document(e->document, e->document_len, &ascii, len - 1, &drawn);
        check(e->name, "a buffer that is too small for a document by one", is_small(&drawn, len));
        draw_example(e, &json, ROOM, &of_arrays);
        draw_document(e->document, e->document_len, &json, ROOM, &drawn);
        check(e->name, "JSON of the document is that of the arrays",
              wrote(&drawn, (const char *)of_arrays.out, of_arrays.answer.needed));
        size_t closing = e->document_len - 1;
        while (e->document[closing] != '}') closing--;
        for (size_t cut = 0; cut <= closing; cut += 1 + cut / 16) {
            draw_document(e->document, cut, &ascii, ROOM, &drawn);
            check(e->name, "a document that is cut is none", refuses_document(&drawn));
        }
    }
}

static void try_no_documents(void) {
    static reply it;
    static const char nul[] = "{\"files\":[],\"reports\":[]}\0";
    static const char *const none_of_them[] = {
        "", " ", "{", "[]", "null", "{}", "\377", "{\"files\":[]}", "{\"files\":[],\"reports\":[]}x",
        "{\"files\":[],\"reports\":[],\"more\":1}", "{\"version\":3,\"files\":[],\"reports\":[]}",
        "\357\273\277{\"files\":[],\"reports\":[]}",
    };
    for (size_t at = 0; at < COUNT(none_of_them); at++) {
        draw_document(none_of_them[at], strlen(none_of_them[at]), &ascii, ROOM, &it);
        check(none_of_them[at], "is no document", refuses_document(&it));
    }
    draw_document(nul, sizeof nul - 1, &ascii, ROOM, &it);
    check("a byte 0 after a document", "makes it none", refuses_document(&it));
    draw_document(nul, sizeof nul - 2, &ascii, 0, &it);
    check("a document of no reports", "is drawn as nothing", wrote(&it, "", 0));
    begin(&it);
    it.status = girzohal_document_or_empty(NULL, 9, &ascii, NULL, 9, &it.answer);
    check("NULL", "is no document", refuses_document(&it));
    begin(&it);
    it.status = girzohal_document_or_empty((const uint8_t *)nul, sizeof nul - 2, &ascii, NULL, 0, &it.answer);
    check("NULL as the buffer of a document", "is empty", wrote(&it, "", 0));
    girzohal_look wrong = {3, 0, 2, 80};
    draw_document("{", 1, &wrong, ROOM, &it);
    check("a theme", "goes before the document", is_wrong(&it, 4, 0));
    wrong.theme = 0;
    draw_document("{", 1, &wrong, ROOM, &it);
    check("tab stops", "go before the document", is_wrong(&it, 4, 1));
    wrong.tabs = 16;
    draw_document("{", 1, &wrong, ROOM, &it);
    check("a form", "goes before the document", is_wrong(&it, 4, 2));
}

static void try_refused_documents(void) {
    static reply it;
    char document[512];
    static const char form[] = "{\"version\":2,\"files\":[{\"name\":\"a\",\"source\":\"\303\251\\nabc\"}],\"reports\":["
                               "{\"file\":0,\"message\":\"m\"},{\"file\":%d,\"message\":\"m\",\"labels\":["
                               "{\"bytes\":[0,2]},{%s}]}]}";
    struct {
        int file;
        const char *label;
        uint32_t cause;
        size_t label_at;
        uint64_t first, second;
    } refused[] = {
        {1, "\"bytes\":[0,2]", GIRZOHAL_UNKNOWN_FILE, 0, 0, 0},
        {7, "\"bytes\":[9,9]", GIRZOHAL_UNKNOWN_FILE, 0, 0, 0},
        {0, "\"bytes\":[1,2]", GIRZOHAL_START_NO_PLACE, 1, 0, 0},
        {0, "\"bytes\":[0,7]", GIRZOHAL_END_NO_PLACE, 1, 0, 0},
        {0, "\"start\":[3,1],\"end\":[3,1]", GIRZOHAL_START_NO_PLACE, 1, 0, 0},
        {0, "\"start\":[2,4],\"end\":[2,5]", GIRZOHAL_END_NO_PLACE, 1, 0, 0},
        {0, "\"start\":[2,3],\"end\":[2,1]", GIRZOHAL_END_BEFORE_START, 1, 5, 3},
    };
    for (size_t at = 0; at < COUNT(refused); at++) {
        int len = sprintf(document, form, refused[at].file, refused[at].label);
        draw_document(document, (size_t)len, &ascii, 1, &it);
        check(refused[at].label, "is refused, which goes before a small buffer",
              refuses(&it, refused[at].cause, 1, refused[at].label_at, refused[at].first, refused[at].second));
    }
}

/* arrays in arrays, far deeper than a document nests */
static void try_deep_documents(void) {
    enum { DEEP = 1000000 };
    static reply it;
    char *deep = malloc(DEEP);
    if (deep != NULL) memset(deep, '[', DEEP);
    if (deep != NULL) draw_document(deep, DEEP, &ascii, ROOM, &it);
    check("a million open brackets", "are no document", deep != NULL && refuses_document(&it));
    free(deep);
}

/* ---- wrong and hostile arguments: one report with one label, of which one number is changed */

static const char texts[] = "cart.jslet tot\303\244l = 1;\nprint(total);\nno such nameeslintno-undefdid you mean it?";
#define TEXTS_LEN (sizeof texts - 1)
static girzohal_file file;
static girzohal_report report;
static girzohal_label label;
static girzohal_look look;
static const girzohal_text none = {SIZE_MAX, SIZE_MAX};

static void fresh(void) {
    girzohal_file a_file = {{0, 7}, {7, 37}};
    girzohal_report a_report = {0, GIRZOHAL_ERROR, {37, 49}, {49, 55}, {55, 63}, {63, 79}, none, none, 0, 1};
    girzohal_label a_label = {22, 27, none, 1};
    file = a_file;
    report = a_report;
    label = a_label;
    look = ascii;
}

static void draw(reply *it) {
    begin(it);
    it->status = girzohal_draw(GIRZOHAL_ABI, (const uint8_t *)texts, TEXTS_LEN, &file, 1, &report, 1, &label, 1, &look, it->out, ROOM,
                               &it->answer);
}

static int cuts(size_t at) {
    return at > TEXTS_LEN || (at < TEXTS_LEN && ((uint8_t)texts[at] & 0xC0) == 0x80);
}

static const girzohal_text wrong_texts[] = {
    {5, 4},
    {0, TEXTS_LEN + 1},
    {TEXTS_LEN + 1, TEXTS_LEN + 1},
    {0, SIZE_MAX},
    {SIZE_MAX, 0},
    {SIZE_MAX, SIZE_MAX - 1},
    {SIZE_MAX - 1, SIZE_MAX},
    {SIZE_MAX - 1, SIZE_MAX - 1},
    {SIZE_MAX / 2 + 1, SIZE_MAX / 2 + 1},
    {0, 15},
    {15, 15},
    {15, 20},
};

static void try_texts(void) {
    static reply it;
    girzohal_text *places[] = {&file.name,     &file.source,  &report.message, &report.scope, &report.number,
                               &report.help,   &report.note,  &report.url,     &label.text};
    const size_t arrays[] = {1, 1, 2, 2, 2, 2, 2, 2, 3};
    const int may_miss[] = {0, 0, 0, 1, 1, 1, 1, 1, 1}, may_be_empty[] = {1, 1, 1, 0, 0, 1, 1, 1, 1};
    for (size_t place = 0; place < COUNT(places); place++) {
        for (size_t at = 0; at < COUNT(wrong_texts); at++) {
            fresh();
            *places[place] = wrong_texts[at];
            draw(&it);
            check("a wrong range", "is found", is_wrong(&it, arrays[place], 0));
        }
        fresh();
        *places[place] = none;
        if (place == 1) label.start = label.end = 0;
        draw(&it);
        check("no text", "is accepted where it may be", may_miss[place] ? it.status == 0 : is_wrong(&it, arrays[place], 0));
        fresh();
        girzohal_text empty = {TEXTS_LEN, TEXTS_LEN};
        *places[place] = empty;
        if (place == 1) label.start = label.end = 0;
        draw(&it);
        check("an empty text", "is accepted where it may be",
              may_be_empty[place] ? it.status == 0 : is_wrong(&it, arrays[place], 0));
    }
    for (size_t at = 0; at <= TEXTS_LEN + 2; at++) {
        fresh();
        report.message.start = 0;
        report.message.end = at;
        draw(&it);
        check("each end", "is a boundary or wrong", cuts(at) ? is_wrong(&it, 2, 0) : it.status == 0);
    }
}

/* ---- long texts, with characters past ASCII around each end of the blocks that are checked at once */

static const struct {
    const char *bytes;
    size_t len;
    int is_text;
} parts[] = {
    {"\303\251", 2, 1},         {"\346\227\245", 3, 1}, {"\360\237\221\215", 4, 1}, {"\303", 1, 0},
    {"\251", 1, 0},             {"\300\200", 2, 0},     {"\355\240\200", 3, 0},      {"\364\220\200\200", 4, 0},
};

static void try_long_texts(void) {
    enum { LONG = 4096, BLOCK = 512 };
    static uint8_t bytes[LONG];
    static reply it;
    fresh();
    for (size_t part = 0; part < COUNT(parts); part++) {
        int same = 1;
        for (size_t at = 0; at + parts[part].len <= LONG; at++) {
            if ((at + 8) % BLOCK >= 16) continue;
            memset(bytes, 'a', LONG);
            memcpy(bytes + at, parts[part].bytes, parts[part].len);
            begin(&it);
            it.status = girzohal_draw(GIRZOHAL_ABI, bytes, LONG, &file, 0, &report, 0, &label, 0, &look, it.out, ROOM, &it.answer);
            same = same && (parts[part].is_text ? wrote(&it, "", 0) : is_wrong(&it, 0, 0));
        }
        check("a part of a long text", "is found at every offset", same);
    }
    for (size_t at = 0; at + 3 <= LONG; at += 3) memcpy(bytes + at, "\346\227\245", 3);
    for (size_t len = LONG - 4; len < LONG; len++) {
        begin(&it);
        it.status = girzohal_draw(GIRZOHAL_ABI, bytes, len, &file, 0, &report, 0, &label, 0, &look, it.out, ROOM, &it.answer);
        check("a long text past ASCII", "is a text up to each character", len % 3 ? is_wrong(&it, 0, 0) : wrote(&it, "", 0));
    }
}

static void try_numbers(void) {
    static reply it;
    struct {
        const char *what;
        uint32_t *number, value;
        size_t array, index;
    } wrong[] = {
        {"a fourth severity", &report.severity, 3, 2, 0},
        {"the last severity", &report.severity, UINT32_MAX, 2, 0},
        {"a second file", &report.file, 1, 2, 0},
        {"the last file", &report.file, UINT32_MAX, 2, 0},
        {"the last file but one", &report.file, UINT32_MAX - 1, 2, 0},
        {"a fourth theme", &look.theme, 3, 4, 0},
        {"the last theme", &look.theme, UINT32_MAX, 4, 0},
        {"no tab stops", &look.tabs, 0, 4, 1},
        {"tab stops too far apart", &look.tabs, 17, 4, 1},
        {"a third form", &look.form, 2, 4, 2},
    };
    for (size_t at = 0; at < COUNT(wrong); at++) {
        fresh();
        *wrong[at].number = wrong[at].value;
        draw(&it);
        check(wrong[at].what, "is wrong", is_wrong(&it, wrong[at].array, wrong[at].index));
    }
    const size_t ranges[][2] = {{0, 2}, {1, 1}, {2, 0}, {0, SIZE_MAX}, {SIZE_MAX, 1}, {SIZE_MAX, 2}, {SIZE_MAX, SIZE_MAX}, {1, SIZE_MAX}};
    for (size_t at = 0; at < COUNT(ranges); at++) {
        fresh();
        report.first_label = ranges[at][0];
        report.labels = ranges[at][1];
        draw(&it);
        check("labels outside the list", "are wrong", is_wrong(&it, 2, 0));
    }
    fresh();
    report.first_label = 1;
    report.labels = 0;
    draw(&it);
    check("no labels at the list's end", "are right", it.status == 0);
    fresh();
    look.tabs = 16;
    look.width = 0;
    draw(&it);
    check("no columns at all", "are accepted", it.status == 0);
    look.width = SIZE_MAX;
    draw(&it);
    check("all columns that there are", "are accepted", it.status == 0);
}

/* the earlier array decides, then the earlier element */
static void try_order(void) {
    static reply it;
    girzohal_text turned = {5, 4};
    fresh();
    label.text = turned;
    look.theme = 9;
    draw(&it);
    check("labels", "go before the look", is_wrong(&it, 3, 0));
    report.severity = 7;
    draw(&it);
    check("reports", "go before labels", is_wrong(&it, 2, 0));
    file.name = none;
    draw(&it);
    check("files", "go before reports", is_wrong(&it, 1, 0));
    begin(&it);
    it.status = girzohal_draw(GIRZOHAL_ABI, (const uint8_t *)"\377", 1, &file, 1, &report, 1, &label, 1, &look, it.out, ROOM, &it.answer);
    check("texts", "go before files", is_wrong(&it, 0, 0));
    fresh();
    look.theme = 9;
    look.tabs = 0;
    look.form = 9;
    draw(&it);
    check("the theme", "goes before tab stops", is_wrong(&it, 4, 0));
    look.theme = 0;
    draw(&it);
    check("tab stops", "go before the form", is_wrong(&it, 4, 1));
    fresh();
    girzohal_report reports[4] = {report, report, report, report};
    reports[2].file = 5;
    reports[3].severity = 5;
    girzohal_label labels[3] = {label, label, label};
    begin(&it);
    it.status = girzohal_draw(GIRZOHAL_ABI, (const uint8_t *)texts, TEXTS_LEN, &file, 1, reports, 4, labels, 3, &look, it.out, ROOM, &it.answer);
    check("the first wrong report", "is named", is_wrong(&it, 2, 2));
    labels[1].text = turned;
    labels[2].text = turned;
    begin(&it);
    it.status = girzohal_draw(GIRZOHAL_ABI, (const uint8_t *)texts, TEXTS_LEN, &file, 1, reports, 2, labels, 3, &look, it.out, ROOM, &it.answer);
    check("a label that no report names", "is checked too", is_wrong(&it, 3, 1));
}

/* the number of the ABI goes before everything else, and nothing else is read */
static void try_abi(void) {
    static reply it;
    const uint32_t numbers[] = {0, 2, 256, UINT32_MAX};
    for (size_t at = 0; at < COUNT(numbers); at++) {
        fresh();
        begin(&it);
        it.status = girzohal_draw(numbers[at], (const uint8_t *)texts, TEXTS_LEN, &file, 1, &report, 1, &label, 1, &look, it.out, ROOM,
                                  &it.answer);
        check("another ABI", "is wrong", is_wrong(&it, GIRZOHAL_WRONG_ABI, 0));
        file.name = none;
        report.severity = 7;
        look.theme = 9;
        begin(&it);
        it.status = girzohal_draw(numbers[at], (const uint8_t *)"\377", 1, &file, 1, &report, 1, &label, 1, &look, it.out, 0, &it.answer);
        check("another ABI", "goes before the texts", is_wrong(&it, GIRZOHAL_WRONG_ABI, 0));
        begin(&it);
        it.status = girzohal_document(numbers[at], (const uint8_t *)"{", 1, &look, it.out, ROOM, &it.answer);
        check("another ABI", "goes before the look and the document", is_wrong(&it, GIRZOHAL_WRONG_ABI, 0));
    }
    check("the ABI", "is the first", GIRZOHAL_ABI == 1);
}

static void try_refusals(void) {
    static reply it;
    struct {
        const char *what;
        uint32_t start, end, cause;
        uint64_t first, second;
    } refused[] = {
        {"an end past the source", 22, 31, GIRZOHAL_END_NO_PLACE, 0, 0},
        {"the last end", 22, UINT32_MAX, GIRZOHAL_END_NO_PLACE, 0, 0},
        {"a start past the source", 31, 31, GIRZOHAL_START_NO_PLACE, 0, 0},
        {"a start that cuts a character", 8, 9, GIRZOHAL_START_NO_PLACE, 0, 0},
        {"an end that cuts a character", 7, 8, GIRZOHAL_END_NO_PLACE, 0, 0},
        {"an end before its start", 28, 27, GIRZOHAL_END_BEFORE_START, 28, 27},
    };
    for (size_t at = 0; at < COUNT(refused); at++) {
        fresh();
        label.start = refused[at].start;
        label.end = refused[at].end;
        draw(&it);
        check(refused[at].what, "is refused",
              refuses(&it, refused[at].cause, 0, 0, refused[at].first, refused[at].second));
    }
    fresh();
    girzohal_label labels[3] = {label, label, label};
    girzohal_report reports[2] = {report, report};
    reports[1].labels = 3;
    labels[2].end = 31;
    begin(&it);
    it.status = girzohal_draw(GIRZOHAL_ABI, (const uint8_t *)texts, TEXTS_LEN, &file, 1, reports, 2, labels, 3, &look, it.out, 1, &it.answer);
    check("a refusal", "names report and label, and goes before a small buffer", refuses(&it, GIRZOHAL_END_NO_PLACE, 1, 2, 0, 0));
}

/* ---- texts of all kinds */

static void try_kinds_of_texts(void) {
    static reply it;
    static const char bytes[] = "a\0b\0c\n\0d";
    girzohal_file with_nul = {{0, 3}, {0, 8}};
    girzohal_report of_nul = {0, GIRZOHAL_ADVICE, {1, 2}, {1, 2}, {3, 4}, {0, 8}, {0, 8}, {1, 2}, 0, 1};
    girzohal_label at_nul = {1, 4, {3, 4}, UINT32_MAX};
    begin(&it);
    it.status = girzohal_draw(GIRZOHAL_ABI, (const uint8_t *)bytes, 8, &with_nul, 1, &of_nul, 1, &at_nul, 1, &ascii, it.out, ROOM, &it.answer);
    check("texts with NUL", "are drawn", it.status == 0 && it.answer.needed > 0 && untouched_from(&it, it.answer.needed));
    static const char oops[] = "a.jsfoo\nbar\nbazOopshere";
    static const char line[] = "{\"message\": \"Oops\",\"severity\": \"error\",\"filename\": \"a.js\",\"labels\": [{\"label\": \"here\",\"span\": {\"offset\": 4,\"length\": 3,\"line\": 2,\"column\": 1}}]}\n";
    girzohal_file a_file = {{0, 4}, {4, 15}};
    girzohal_report a_report = {0, GIRZOHAL_ERROR, {15, 19}, none, none, none, none, none, 0, 1};
    girzohal_label a_label = {4, 7, {19, 23}, 0};
    begin(&it);
    it.status = girzohal_draw(GIRZOHAL_ABI, (const uint8_t *)oops, sizeof oops - 1, &a_file, 1, &a_report, 1, &a_label, 1, &json, it.out, ROOM, &it.answer);
    check("JSON", "is one line", wrote(&it, line, sizeof line - 1));
}

/* ---- empty arrays */

static void try_empty(void) {
    static reply it;
    fresh();
    const uint8_t *bytes = (const uint8_t *)texts;
    begin(&it);
    it.status = girzohal_draw(GIRZOHAL_ABI, bytes, 0, &file, 0, &report, 0, &label, 0, &look, it.out, 0, &it.answer);
    check("nothing at all", "is drawn as nothing", wrote(&it, "", 0));
    begin(&it);
    it.status = girzohal_draw(GIRZOHAL_ABI, bytes, 0, &file, 1, &report, 1, &label, 1, &look, it.out, ROOM, &it.answer);
    check("no texts", "make the file wrong", is_wrong(&it, 1, 0));
    begin(&it);
    it.status = girzohal_draw(GIRZOHAL_ABI, bytes, TEXTS_LEN, &file, 0, &report, 1, &label, 1, &look, it.out, ROOM, &it.answer);
    check("no files", "make the report wrong", is_wrong(&it, 2, 0));
    begin(&it);
    it.status = girzohal_draw(GIRZOHAL_ABI, bytes, TEXTS_LEN, &file, 1, &report, 0, &label, 1, &look, it.out, ROOM, &it.answer);
    check("no reports", "are drawn as nothing", wrote(&it, "", 0));
    begin(&it);
    it.status = girzohal_draw(GIRZOHAL_ABI, bytes, TEXTS_LEN, &file, 1, &report, 1, &label, 0, &look, it.out, ROOM, &it.answer);
    check("no labels", "make the report wrong", is_wrong(&it, 2, 0));
    report.labels = 0;
    begin(&it);
    it.status = girzohal_draw(GIRZOHAL_ABI, bytes, TEXTS_LEN, &file, 1, &report, 1, &label, 0, &look, it.out, ROOM, &it.answer);
    check("a report without labels", "is drawn", it.status == 0 && it.answer.needed > 0);
    size_t needed = it.answer.needed;
    begin(&it);
    it.status = girzohal_draw(GIRZOHAL_ABI, bytes, TEXTS_LEN, &file, 1, &report, 1, &label, 0, &look, it.out, 0, &it.answer);
    check("a buffer of no bytes", "is too small", is_small(&it, needed));
    begin(&it);
    it.status = girzohal_draw_or_empty(bytes, TEXTS_LEN, &file, 1, &report, 1, NULL, 0, &look, NULL, 0, &it.answer);
    check("NULL as labels and buffer", "are empty", is_small(&it, needed));
    begin(&it);
    it.status = girzohal_draw_or_empty(NULL, 0, NULL, 0, NULL, 0, NULL, 0, &look, NULL, 0, &it.answer);
    check("NULL everywhere", "is nothing at all", wrote(&it, "", 0));
    begin(&it);
    it.status = girzohal_draw_or_empty(NULL, 9, NULL, 9, NULL, 9, NULL, 9, &look, NULL, 9, &it.answer);
    check("NULL with lengths", "is nothing at all", wrote(&it, "", 0));
}

static void try_put(void) {
    uint8_t room[8] = {0};
    size_t len = 0;
    girzohal_text first = girzohal_put(room, 4, &len, "abc"), second = girzohal_put(room, 4, &len, "de");
    girzohal_text third = girzohal_put(room, 4, &len, "d"), missing = girzohal_put(room, 4, &len, NULL);
    check("girzohal_put", "gives ranges", first.start == 0 && first.end == 3 && third.start == 3 && third.end == 4);
    check("girzohal_put", "NULL is no text", missing.start == SIZE_MAX && missing.end == SIZE_MAX);
    check("girzohal_put", "puts nothing without room", len == 4 && room[4] == 0 && second.start == SIZE_MAX - 1 && second.end == SIZE_MAX);
}

/* ---- many reports, and many threads */

static void try_many(void) {
    enum { MANY = 10000 };
    static reply one;
    fresh();
    draw(&one);
    girzohal_report *reports = malloc(MANY * sizeof *reports);
    uint8_t *out = malloc(one.answer.needed * MANY + 1);
    girzohal_answer answer;
    int same = reports != NULL && out != NULL;
    if (same) {
        for (size_t at = 0; at < MANY; at++) reports[at] = report;
        out[one.answer.needed * MANY] = 0xAA;
        uint32_t status = girzohal_draw(GIRZOHAL_ABI, (const uint8_t *)texts, TEXTS_LEN, &file, 1, reports, MANY, &label, 1, &look, out,
                                        one.answer.needed * MANY, &answer);
        same = status == 0 && answer.needed == one.answer.needed * MANY && out[answer.needed] == 0xAA;
        for (size_t at = 0; same && at < MANY; at++)
            same = memcmp(out + at * one.answer.needed, one.out, one.answer.needed) == 0;
    }
    check("10,000 reports", "are each drawn as alone", same);
    free(reports);
    free(out);
}

static void *draw_often(void *bad) {
    reply *it = malloc(sizeof *it);
    for (int round = 0; it != NULL && round < 50; round++) {
        for (size_t at = 0; at < COUNT(examples); at++) {
            const example *e = &examples[at];
            draw_example(e, &ascii, ROOM, it);
            if (!wrote(it, e->drawing, e->drawing_len)) ++*(int *)bad;
            draw_document(e->document, e->document_len, &ascii, ROOM, it);
            if (!wrote(it, e->drawing, e->drawing_len)) ++*(int *)bad;
        }
    }
    if (it == NULL) ++*(int *)bad;
    free(it);
    return NULL;
}

static void try_threads(void) {
    pthread_t threads[8];
    int bad[8] = {0}, all = 0, started = 0;
    for (; started < 8; started++)
        if (pthread_create(&threads[started], NULL, draw_often, &bad[started]) != 0) break;
    for (int at = 0; at < started; at++) {
        pthread_join(threads[at], NULL);
        all += bad[at];
    }
    check("eight threads", "draw the same at once", started == 8 && all == 0);
}

static void try_version(void) {
    char said[32];
    uint32_t version = girzohal_version();
    sprintf(said, "%u.%u.%u", version >> 16, version >> 8 & 255, version & 255);
    check("the version", "is that of the header", version == GIRZOHAL_VERSION);
    check("the version", "is that of the file VERSION", strcmp(said, VERSION) == 0);
}

int main(void) {
    try_version();
    try_examples();
    try_documents();
    try_no_documents();
    try_refused_documents();
    try_deep_documents();
    try_texts();
    try_long_texts();
    try_numbers();
    try_order();
    try_abi();
    try_refusals();
    try_kinds_of_texts();
    try_empty();
    try_put();
    try_many();
    try_threads();
    return summary("calls");
}
