/* girzohal: draws diagnostics together with the source code. The drawing is proved.
 *
 * Link libgirzohal.a or libgirzohal.so. For C99 and C++11 and later, on Linux on x86-64-v2 and on 64-bit ARM.
 *
 * There are two ways to call it. `girzohal_sources`, at the end, collects files and reports in memory that grows, and
 * counts all ranges itself: begin there. The calls of the library take arrays that the caller has laid out: all texts are
 * in one buffer of bytes, `texts`, which is UTF-8 as a whole. Everything else is numbers: a text is a range of that
 * buffer, and files, reports and labels are arrays of structs that give texts by their ranges.
 *
 * For every call of the library:
 * - The first argument is GIRZOHAL_ABI. A library with another number reads nothing else and returns
 *   GIRZOHAL_WRONG_ARGUMENT. A call keeps its parameters and its answer in all versions; what may change, and then changes
 *   GIRZOHAL_ABI, are the other structs and what the numbers mean.
 * - No pointer is kept and nothing has to be freed. Threads may call at the same time.
 * - No pointer may be NULL, not even if its length is 0 (an empty std::vector gives NULL): the calls that end in
 *   `_or_empty` replace NULL by a valid address. What `out` and `answer` point to overlaps nothing else. No array is
 *   longer than PTRDIFF_MAX bytes. Every length counts elements, not bytes.
 * - Every other number is tested. A wrong value only gives its status.
 * - With every status but GIRZOHAL_DONE the buffer `out` is unchanged. Past `needed` it always is. No 0 byte is written
 *   after the text.
 */
#ifndef GIRZOHAL_H
#define GIRZOHAL_H

#include <stddef.h>
#include <stdint.h>
#include <stdlib.h>
#include <string.h>

#ifdef __cplusplus
extern "C" {
#endif

/* The version of this header: major, minor and patch, a byte each. girzohal_version() gives that of the library. */
#define GIRZOHAL_VERSION 0x000100u

/* The number of the ABI that this header describes, the first argument of each call. */
#define GIRZOHAL_ABI 1u

/* The status of a call. If several causes hold, it is the first of 2, 3, 1, 10 whose cause holds; out of memory may
 * come instead of 3, 1, 10 and 0, never instead of 2. */
enum {
    GIRZOHAL_DONE = 0,             /* the text is in `out`; `needed` is its length in bytes */
    GIRZOHAL_REFUSED = 1,          /* a report is refused; `cause`, `report` and `label` say which and why */
    GIRZOHAL_WRONG_ARGUMENT = 2,   /* an argument is wrong; `array` and `index` name the first that is */
    GIRZOHAL_NO_DOCUMENT = 3,      /* the bytes are no document; only from girzohal_document */
    GIRZOHAL_OUT_OF_MEMORY = 6,    /* out of memory */
    GIRZOHAL_BUFFER_TOO_SMALL = 10 /* `out` is too small; `needed` is how many bytes are needed */
};

/* The severity of a report. */
enum { GIRZOHAL_ADVICE = 0, GIRZOHAL_WARNING = 1, GIRZOHAL_ERROR = 2 };

/* The theme of drawings. */
enum {
    GIRZOHAL_UNICODE = 0,         /* colors, and characters that draw lines */
    GIRZOHAL_UNICODE_NOCOLOR = 1, /* characters that draw lines, no colors */
    GIRZOHAL_NONE = 2             /* ASCII only, except for the texts themselves */
};

/* The form in which reports are written. */
enum {
    GIRZOHAL_DRAWING = 0, /* each report is drawn */
    GIRZOHAL_JSON = 1     /* each report is one line of JSON, which ends in LF; theme, tabs and width don't matter */
};

/* `array` of an answer: which argument is wrong. The number of the ABI is tested first, then the others in this order,
 * each in the order of its elements. For girzohal_document only the number of the ABI and the look can be wrong. */
enum {
    GIRZOHAL_TEXTS = 0,   /* not UTF-8; `index` is 0 */
    GIRZOHAL_FILES = 1,   /* `index` is the file's index, or SIZE_MAX if there are more than UINT32_MAX files */
    GIRZOHAL_REPORTS = 2, /* `index` is the report's index */
    GIRZOHAL_LABELS = 3,  /* `index` is the label's index in `labels`, whether a report has the label or not */
    GIRZOHAL_LOOK = 4,    /* `index` is the field: 0 theme, 1 tabs, 2 form */
    GIRZOHAL_WRONG_ABI = 5 /* the library has another ABI than the header; `index` is 0 */
};

/* `cause` of an answer: why a report is refused. The first report with an error decides; in it positions come before
 * the order of ends, and a label's start before its end. */
enum {
    GIRZOHAL_UNKNOWN_FILE = 1,     /* the report is on a file that isn't there; only from girzohal_document: with
                                      girzohal_draw such a report is a wrong argument */
    GIRZOHAL_START_NO_PLACE = 2,   /* a label's start lies outside its file's source, inside a character, or at a row or
                                      column that isn't there */
    GIRZOHAL_END_NO_PLACE = 3,     /* its end does */
    GIRZOHAL_END_BEFORE_START = 4  /* it ends before it starts; `first` and `second` are its start and end, in bytes */
};

/* A text: the bytes of `texts` from `start`, counted from 0, to `end`, which is past its last byte. An empty text has
 * start == end. {SIZE_MAX, SIZE_MAX} means no text, for texts that may be missing. A range that ends past `texts`, ends
 * before it starts or splits a character is wrong. */
typedef struct {
    size_t start, end;
} girzohal_text;

/* A file that reports are on. */
typedef struct {
    girzohal_text name;   /* as it is shown; it may be empty, and may not be missing */
    girzohal_text source; /* what the file holds: fewer than UINT32_MAX bytes; it may not be missing */
} girzohal_file;

/* A part of a file's source, and a text on it. The file is that of the report that has the label. */
typedef struct {
    uint32_t start;     /* its first byte, counted from 0 in its file's source */
    uint32_t end;       /* the byte past its last; start == end is a position between two characters */
    girzohal_text text; /* what it says; it may be missing */
    uint32_t primary;   /* whether the label is primary: 0 is no, any other number is yes */
} girzohal_label;

/* A report on one file. */
typedef struct {
    uint32_t file;         /* the file's index in `files`, from 0 */
    uint32_t severity;     /* GIRZOHAL_ADVICE, GIRZOHAL_WARNING or GIRZOHAL_ERROR */
    girzohal_text message; /* what is reported; it may be empty, and may not be missing */
    girzohal_text scope;   /* the first part of its code, like "eslint"; it may be missing, and may not be empty */
    girzohal_text number;  /* the second part, like "no-undef"; the same */
    girzohal_text help;    /* how to fix it; it may be missing */
    girzohal_text note;    /* more to know; it may be missing */
    girzohal_text url;     /* where to read more; it may be missing */
    size_t first_label;    /* its first label's index in `labels`, from 0 */
    size_t labels;         /* how many labels it has, from the first on; they may be those of another report too */
} girzohal_report;

/* How the text looks. */
typedef struct {
    uint32_t theme; /* GIRZOHAL_UNICODE, GIRZOHAL_UNICODE_NOCOLOR or GIRZOHAL_NONE */
    uint32_t tabs;  /* the columns between tab stops, from 1 to 16; 4 is usual */
    uint32_t form;  /* GIRZOHAL_DRAWING or GIRZOHAL_JSON */
    size_t width;   /* the columns that messages, helps and notes are filled to; 80 is usual, SIZE_MAX breaks no line */
} girzohal_look;

/* What a call gives besides its status. Fields that don't belong to the status are 0. */
typedef struct {
    size_t needed;   /* with 0 and 10: how many bytes the text has */
    size_t array;    /* with 2: which argument is wrong */
    size_t index;    /* with 2: which of its elements, from 0 */
    size_t report;   /* with 1: which report is refused, from 0 */
    size_t label;    /* with 1 and the causes 2 to 4: which of that report's labels, from 0 */
    uint32_t cause;  /* with 1: why */
    uint64_t first;  /* with 1 and the cause 4: where the label starts, in bytes of its file's source */
    uint64_t second; /* with 1 and the cause 4: where it ends */
} girzohal_answer;

/* Writes the reports of the arrays into `out`, in their order, and returns the status.
 *
 * A buffer of twice the texts, 4 KiB, and 256 bytes for each report is seldom too small. If it is, `needed` says how
 * large it has to be; call again. */
uint32_t girzohal_draw(uint32_t abi, const uint8_t *texts, size_t texts_len, const girzohal_file *files, size_t files_len,
                       const girzohal_report *reports, size_t reports_len, const girzohal_label *labels,
                       size_t labels_len, const girzohal_look *look, uint8_t *out, size_t out_len,
                       girzohal_answer *answer);

/* Writes the reports of a document into `out`, in their order, and returns the status. A document is JSON in UTF-8,
 * files and reports on them, in the form of girzohal's docs/DOCUMENT.md.
 *
 * A buffer of twice the document and 4 KiB is seldom too small. If it is, `needed` says how large it has to be; call
 * again. */
uint32_t girzohal_document(uint32_t abi, const uint8_t *document, size_t document_len, const girzohal_look *look, uint8_t *out,
                           size_t out_len, girzohal_answer *answer);

/* The version of the library: major, minor and patch, a byte each; 0x000100 is 0.1.0. */
uint32_t girzohal_version(void);

/* ---- helpers for arrays */

/* No text. */
static inline girzohal_text girzohal_no_text(void) {
    girzohal_text none = {SIZE_MAX, SIZE_MAX};
    return none;
}

/* Appends a C string to the first `*len` bytes of `texts`, a buffer of `room` bytes, and returns its range. NULL is no
 * text. If there is no room, nothing is appended, and the range is past the buffer: the call that gets it returns
 * GIRZOHAL_WRONG_ARGUMENT. */
static inline girzohal_text girzohal_put(uint8_t *texts, size_t room, size_t *len, const char *text) {
    girzohal_text range = girzohal_no_text();
    size_t bytes;
    if (text == NULL) return range;
    bytes = strlen(text);
    if (*len > room || bytes > room - *len) {
        range.start = SIZE_MAX - 1;
        return range;
    }
    range.start = *len;
    memcpy(texts + *len, text, bytes);
    *len += bytes;
    range.end = *len;
    return range;
}

/* girzohal_draw, where NULL is an array of no elements, whatever its length says; with NULL as `out` it only gives
 * `needed`. */
static inline uint32_t girzohal_draw_or_empty(const uint8_t *texts, size_t texts_len, const girzohal_file *files,
                                              size_t files_len, const girzohal_report *reports, size_t reports_len,
                                              const girzohal_label *labels, size_t labels_len,
                                              const girzohal_look *look, uint8_t *out, size_t out_len,
                                              girzohal_answer *answer) {
    girzohal_file no_file;
    girzohal_report no_report;
    girzohal_label no_label;
    uint8_t no_byte;
    return girzohal_draw(GIRZOHAL_ABI, texts ? texts : (const uint8_t *)"", texts ? texts_len : 0, files ? files : &no_file,
                         files ? files_len : 0, reports ? reports : &no_report, reports ? reports_len : 0,
                         labels ? labels : &no_label, labels ? labels_len : 0, look, out ? out : &no_byte,
                         out ? out_len : 0, answer);
}

/* girzohal_document, where NULL is an empty document (which is no document), and as `out` an empty buffer. */
static inline uint32_t girzohal_document_or_empty(const uint8_t *document, size_t document_len,
                                                  const girzohal_look *look, uint8_t *out, size_t out_len,
                                                  girzohal_answer *answer) {
    uint8_t no_byte;
    return girzohal_document(GIRZOHAL_ABI, document ? document : (const uint8_t *)"", document ? document_len : 0, look,
                             out ? out : &no_byte, out ? out_len : 0, answer);
}

/* ---- sources: files that reports are drawn on, again and again
 *
 *     girzohal_sources sources = {0};
 *     girzohal_sources_add(&sources, "cart.js", "let total = 1;\nprint(totl);\n");
 *     girzohal_sources_report(&sources, 0, GIRZOHAL_ERROR, "`totl` isn't defined.");
 *     girzohal_sources_primary(&sources, 21, 25, "not found");
 *     if (girzohal_sources_draw(&sources, NULL) == GIRZOHAL_DONE) fputs(sources.out, stdout);
 *     girzohal_sources_free(&sources);
 *
 * Only girzohal_sources_draw, girzohal_sources_json and girzohal_sources_document return a status: if there was no memory
 * earlier, they return GIRZOHAL_OUT_OF_MEMORY. Texts are copied. A text that is NULL is missing. One thread at a time may
 * use one girzohal_sources. */

/* The unit in which labels count. */
enum {
    GIRZOHAL_BYTES = 0,      /* bytes of UTF-8 */
    GIRZOHAL_CHARACTERS = 1, /* characters, that is code points */
    GIRZOHAL_UTF16 = 2       /* units of UTF-16: 2 for a character past U+FFFF, else 1 */
};

typedef struct {
    /* Set before the first call, or left 0. */
    uint32_t unit; /* GIRZOHAL_BYTES, GIRZOHAL_CHARACTERS or GIRZOHAL_UTF16 */
    /* Allocates like realloc; with a size of 0 it frees `old`. NULL: realloc and free are called. */
    void *(*resize)(void *context, void *old, size_t size);
    void *context; /* the first argument of `resize` */

    /* Read after a draw. */
    char *out;              /* with GIRZOHAL_DONE: the text, then a 0 byte, until the next draw */
    size_t out_len;         /* its length in bytes, without the 0 byte */
    girzohal_answer answer; /* what the library gave besides the status */

    /* Used by the functions below. */
    uint8_t *texts;
    girzohal_file *files;
    girzohal_report *reports;
    girzohal_label *labels;
    size_t *marks; /* at each 1024 bytes of the texts: how many units come before */
    size_t texts_len, files_len, reports_len, labels_len, marks_len;
    size_t texts_room, files_room, reports_room, labels_room, marks_room, out_room;
    size_t kept;             /* the bytes of `texts` that stay when the reports are dropped */
    uint32_t files_status;   /* GIRZOHAL_OUT_OF_MEMORY after a file that couldn't be added */
    uint32_t reports_status; /* the status of the first part of a report that couldn't be added */
} girzohal_sources;

/* Returns `data` with room for `needed` elements of `size` bytes, or NULL: then `data` is as before. For the functions
 * below only, like every name that ends in an underscore. */
static inline void *girzohal_grown_(girzohal_sources *it, void *data, size_t *room, size_t needed, size_t size) {
    size_t more = 2 * needed + 15;
    void *made;
    if (data != NULL && needed <= *room) return data;
    if (needed > (size_t)PTRDIFF_MAX / 2 / size - 15) return NULL;
    made = it->resize != NULL ? it->resize(it->context, data, more * size) : realloc(data, more * size);
    if (made != NULL) *room = more;
    return made;
}

/* Appends a text, and returns whether there was memory. */
static inline int girzohal_append_(girzohal_sources *it, const char *text, size_t len, girzohal_text *range) {
    void *texts;
    *range = girzohal_no_text();
    if (text == NULL) return 1;
    if (len > (size_t)PTRDIFF_MAX - it->texts_len) return 0;
    texts = girzohal_grown_(it, it->texts, &it->texts_room, it->texts_len + len, 1);
    if (texts == NULL) return 0;
    it->texts = (uint8_t *)texts;
    range->start = it->texts_len;
    memcpy(it->texts + it->texts_len, text, len);
    it->texts_len += len;
    range->end = it->texts_len;
    return 1;
}

/* How many units the characters have that start in a range of the texts. */
static inline size_t girzohal_units_(const girzohal_sources *it, size_t start, size_t end) {
    size_t units = 0;
    for (; start < end; start++) {
        if ((it->texts[start] & 0xC0) != 0x80) units += it->unit == GIRZOHAL_UTF16 && it->texts[start] >= 0xF0 ? 2 : 1;
    }
    return units;
}

static inline size_t girzohal_units_before_(const girzohal_sources *it, size_t at) {
    size_t mark = at / 1024;
    return it->marks[mark] + girzohal_units_(it, mark * 1024, at);
}

/* Counts units up to the end of the texts, and returns whether there was memory. */
static inline int girzohal_count_(girzohal_sources *it) {
    size_t all = it->texts_len / 1024 + 1;
    void *marks;
    if (it->unit == GIRZOHAL_BYTES) return 1;
    marks = girzohal_grown_(it, it->marks, &it->marks_room, all, sizeof *it->marks);
    if (marks == NULL) return 0;
    it->marks = (size_t *)marks;
    if (it->marks_len == 0) it->marks[it->marks_len++] = 0;
    for (; it->marks_len < all; it->marks_len++) {
        size_t before = it->marks_len - 1;
        it->marks[it->marks_len] = it->marks[before] + girzohal_units_(it, before * 1024, it->marks_len * 1024);
    }
    return 1;
}

/* The byte of a file's source at an offset in units. UINT32_MAX, which is past the end of every source, if there is none:
 * the draw then says that it is no place. */
static inline uint32_t girzohal_byte_of_(const girzohal_sources *it, uint32_t file, size_t offset) {
    girzohal_text source;
    size_t wanted, at, units, low = 0, high = it->marks_len;
    if (it->unit == GIRZOHAL_BYTES || file >= it->files_len) return offset < UINT32_MAX ? (uint32_t)offset : UINT32_MAX;
    source = it->files[file].source;
    if (source.start == SIZE_MAX || offset > source.end - source.start) return UINT32_MAX;
    if (source.start / 1024 >= it->marks_len) return UINT32_MAX; /* the unit was set after the file was added */
    wanted = girzohal_units_before_(it, source.start) + offset;
    while (high - low > 1) {
        size_t middle = low + (high - low) / 2;
        if (it->marks[middle] <= wanted) {
            low = middle;
        } else {
            high = middle;
        }
    }
    at = low * 1024;
    units = it->marks[low];
    while (at < source.end && (units < wanted || (it->texts[at] & 0xC0) == 0x80)) {
        units += girzohal_units_(it, at, at + 1);
        at++;
    }
    if (units != wanted || at - source.start >= UINT32_MAX) return UINT32_MAX;
    return (uint32_t)(at - source.start);
}

/* The last report, for one more part of it; NULL if something couldn't be added. A part without a report is a wrong
 * argument: then the draw's answer names the report 0. */
static inline girzohal_report *girzohal_last_(girzohal_sources *it) {
    if (it->files_status != 0 || it->reports_status != 0) return NULL;
    if (it->reports_len == 0) {
        it->reports_status = GIRZOHAL_WRONG_ARGUMENT;
        return NULL;
    }
    return &it->reports[it->reports_len - 1];
}

static inline void girzohal_part_(girzohal_sources *it, girzohal_text *part, const char *text) {
    if (!girzohal_append_(it, text, text != NULL ? strlen(text) : 0, part)) it->reports_status = GIRZOHAL_OUT_OF_MEMORY;
}

/* Adds a file, whose texts are of these lengths in bytes, and returns its index, from 0. */
static inline uint32_t girzohal_sources_add_bytes(girzohal_sources *it, const char *name, size_t name_len,
                                                  const char *source, size_t source_len) {
    girzohal_file file;
    void *files = girzohal_grown_(it, it->files, &it->files_room, it->files_len + 1, sizeof file);
    if (files != NULL) it->files = (girzohal_file *)files;
    if (files == NULL || it->files_status != 0 || it->files_len == UINT32_MAX
        || !girzohal_append_(it, name, name_len, &file.name) || !girzohal_append_(it, source, source_len, &file.source)
        || !girzohal_count_(it)) {
        it->files_status = GIRZOHAL_OUT_OF_MEMORY;
        return UINT32_MAX;
    }
    it->kept = it->texts_len;
    it->files[it->files_len] = file;
    return (uint32_t)it->files_len++;
}

/* Adds a file: its name as it is shown, and its source. Returns its index, from 0. */
static inline uint32_t girzohal_sources_add(girzohal_sources *it, const char *name, const char *source) {
    return girzohal_sources_add_bytes(it, name, name != NULL ? strlen(name) : 0, source, source != NULL ? strlen(source) : 0);
}

/* Begins a report on a file, which the functions below add to. `severity` is GIRZOHAL_ADVICE, GIRZOHAL_WARNING or
 * GIRZOHAL_ERROR. */
static inline void girzohal_sources_report(girzohal_sources *it, uint32_t file, uint32_t severity, const char *message) {
    girzohal_report report;
    girzohal_text none = girzohal_no_text();
    void *reports;
    if (it->files_status != 0 || it->reports_status != 0) return;
    reports = girzohal_grown_(it, it->reports, &it->reports_room, it->reports_len + 1, sizeof report);
    if (reports == NULL) {
        it->reports_status = GIRZOHAL_OUT_OF_MEMORY;
        return;
    }
    it->reports = (girzohal_report *)reports;
    report.file = file;
    report.severity = severity;
    report.scope = report.number = report.help = report.note = report.url = none;
    report.first_label = it->labels_len;
    report.labels = 0;
    girzohal_part_(it, &report.message, message);
    it->reports[it->reports_len++] = report;
}

/* Gives the last report both parts of a code, like "eslint" and "no-undef". Either may be missing; neither may be empty. */
static inline void girzohal_sources_code(girzohal_sources *it, const char *scope, const char *number) {
    girzohal_report *report = girzohal_last_(it);
    if (report != NULL) girzohal_part_(it, &report->scope, scope);
    if (report != NULL) girzohal_part_(it, &report->number, number);
}

/* Gives the last report a help: how to fix it. */
static inline void girzohal_sources_help(girzohal_sources *it, const char *text) {
    girzohal_report *report = girzohal_last_(it);
    if (report != NULL) girzohal_part_(it, &report->help, text);
}

/* Gives the last report a note: more to know. */
static inline void girzohal_sources_note(girzohal_sources *it, const char *text) {
    girzohal_report *report = girzohal_last_(it);
    if (report != NULL) girzohal_part_(it, &report->note, text);
}

/* Gives the last report a URL: where to read more. */
static inline void girzohal_sources_url(girzohal_sources *it, const char *text) {
    girzohal_report *report = girzohal_last_(it);
    if (report != NULL) girzohal_part_(it, &report->url, text);
}

static inline void girzohal_add_label_(girzohal_sources *it, size_t start, size_t end, const char *text, uint32_t primary) {
    girzohal_report *report = girzohal_last_(it);
    girzohal_label label;
    void *labels;
    if (report == NULL) return;
    labels = girzohal_grown_(it, it->labels, &it->labels_room, it->labels_len + 1, sizeof label);
    if (labels == NULL) {
        it->reports_status = GIRZOHAL_OUT_OF_MEMORY;
        return;
    }
    it->labels = (girzohal_label *)labels;
    label.start = girzohal_byte_of_(it, report->file, start);
    label.end = girzohal_byte_of_(it, report->file, end);
    label.primary = primary;
    girzohal_part_(it, &label.text, text);
    it->labels[it->labels_len++] = label;
    report->labels++;
}

/* Gives the last report one more label: the part of its file's source from `start` up to `end`, counted from 0 in the
 * unit of the sources, and a text on it. */
static inline void girzohal_sources_label(girzohal_sources *it, size_t start, size_t end, const char *text) {
    girzohal_add_label_(it, start, end, text, 0);
}

/* The same for the primary label, whose position is in the head of the drawing. */
static inline void girzohal_sources_primary(girzohal_sources *it, size_t start, size_t end, const char *text) {
    girzohal_add_label_(it, start, end, text, 1);
}

/* Drops the reports. The files stay, and so does the memory, for the next reports. */
static inline void girzohal_sources_clear(girzohal_sources *it) {
    it->texts_len = it->kept;
    it->reports_len = it->labels_len = 0;
    it->reports_status = 0;
}

/* Makes room for a text and a 0 byte, and returns whether there was memory. */
static inline int girzohal_make_room_(girzohal_sources *it, size_t len) {
    void *out;
    if (len >= (size_t)PTRDIFF_MAX) return 0;
    out = girzohal_grown_(it, it->out, &it->out_room, len + 1, 1);
    if (out != NULL) it->out = (char *)out;
    return out != NULL;
}

/* `document` is NULL for the files and reports that were added. */
static inline uint32_t girzohal_write_(girzohal_sources *it, const char *document, size_t document_len,
                                       const girzohal_look *look) {
    const girzohal_answer nothing = {0, 0, 0, 0, 0, 0, 0, 0};
    uint32_t status = document != NULL ? 0 : it->files_status != 0 ? it->files_status : it->reports_status;
    size_t room = document != NULL ? 2 * document_len : it->texts_len + 256 * it->reports_len;
    it->answer = nothing;
    it->out_len = 0;
    if (status == GIRZOHAL_WRONG_ARGUMENT) it->answer.array = GIRZOHAL_REPORTS;
    if (status != 0) return status;
    if (!girzohal_make_room_(it, room + 4096)) return GIRZOHAL_OUT_OF_MEMORY;
    for (;;) {
        uint8_t *out = (uint8_t *)it->out;
        if (document != NULL) {
            status = girzohal_document(GIRZOHAL_ABI, (const uint8_t *)document, document_len, look, out, it->out_room - 1,
                                       &it->answer);
        } else {
            status = girzohal_draw_or_empty(it->texts, it->texts_len, it->files, it->files_len, it->reports,
                                            it->reports_len, it->labels, it->labels_len, look, out, it->out_room - 1,
                                            &it->answer);
        }
        if (status != GIRZOHAL_BUFFER_TOO_SMALL) break;
        if (!girzohal_make_room_(it, it->answer.needed)) {
            it->answer = nothing;
            return GIRZOHAL_OUT_OF_MEMORY;
        }
    }
    if (status == GIRZOHAL_DONE) it->out_len = it->answer.needed;
    it->out[it->out_len] = 0;
    return status;
}

/* The usual look: no colors, tab stops 4 columns apart, 80 columns. */
static inline girzohal_look girzohal_usual_look(void) {
    girzohal_look look = {GIRZOHAL_UNICODE_NOCOLOR, 4, GIRZOHAL_DRAWING, 80};
    return look;
}

/* Draws the reports that were added, one after another, into `out`, and returns the status. NULL is the usual look. */
static inline uint32_t girzohal_sources_draw(girzohal_sources *it, const girzohal_look *look) {
    girzohal_look usual = girzohal_usual_look();
    return girzohal_write_(it, NULL, 0, look != NULL ? look : &usual);
}

/* Writes a line of JSON for each report that was added into `out`, and returns the status. */
static inline uint32_t girzohal_sources_json(girzohal_sources *it) {
    girzohal_look look = girzohal_usual_look();
    look.form = GIRZOHAL_JSON;
    return girzohal_write_(it, NULL, 0, &look);
}

/* Draws the reports of a document into `out`, as girzohal_document does, and returns the status. The files and reports
 * that were added don't matter. */
static inline uint32_t girzohal_sources_document(girzohal_sources *it, const char *document, size_t document_len,
                                                 const girzohal_look *look) {
    girzohal_look usual = girzohal_usual_look();
    return girzohal_write_(it, document != NULL ? document : "", document != NULL ? document_len : 0,
                           look != NULL ? look : &usual);
}

static inline void girzohal_release_(girzohal_sources *it, void *data) {
    if (data == NULL) return;
    if (it->resize != NULL) {
        it->resize(it->context, data, 0);
    } else {
        free(data);
    }
}

/* Frees all memory. The sources are then empty and may be used again. */
static inline void girzohal_sources_free(girzohal_sources *it) {
    girzohal_sources empty;
    memset(&empty, 0, sizeof empty);
    empty.unit = it->unit;
    empty.resize = it->resize;
    empty.context = it->context;
    girzohal_release_(it, it->texts);
    girzohal_release_(it, it->files);
    girzohal_release_(it, it->reports);
    girzohal_release_(it, it->labels);
    girzohal_release_(it, it->marks);
    girzohal_release_(it, it->out);
    *it = empty;
}

#ifdef __cplusplus
}
#endif
#endif
