/* The examples as girzohal_sources, with labels in any unit. */
#ifndef GIRZOHAL_BUILD_H
#define GIRZOHAL_BUILD_H
#include "examples.h"

/* a text of an example as a C string, in a room that the next text of this slot replaces */
static inline const char *text_of(const example *e, girzohal_text range, int slot) {
    static char rooms[3][8192];
    if (range.start == SIZE_MAX) return NULL;
    memcpy(rooms[slot], e->texts + range.start, range.end - range.start);
    rooms[slot][range.end - range.start] = 0;
    return rooms[slot];
}

/* how many units come before a byte of a source, counted one after another */
static inline size_t units_of(const char *source, size_t at, uint32_t unit) {
    size_t units = 0;
    for (size_t byte = 0; byte < at; byte++) {
        unsigned char first = (unsigned char)source[byte];
        if (unit == GIRZOHAL_BYTES) units++;
        if (unit == GIRZOHAL_CHARACTERS && (first & 0xC0) != 0x80) units++;
        if (unit == GIRZOHAL_UTF16 && (first & 0xC0) != 0x80) units += first >= 0xF0 ? 2 : 1;
    }
    return units;
}

static inline void add_files(const example *e, girzohal_sources *it) {
    for (size_t at = 0; at < e->files_len; at++)
        girzohal_sources_add(it, text_of(e, e->files[at].name, 0), text_of(e, e->files[at].source, 1));
}

static inline void add_reports(const example *e, girzohal_sources *it) {
    for (size_t at = 0; at < e->reports_len; at++) {
        const girzohal_report *report = &e->reports[at];
        const char *source = e->texts + e->files[report->file].source.start;
        girzohal_sources_report(it, report->file, report->severity, text_of(e, report->message, 0));
        girzohal_sources_code(it, text_of(e, report->scope, 0), text_of(e, report->number, 1));
        girzohal_sources_help(it, text_of(e, report->help, 0));
        girzohal_sources_note(it, text_of(e, report->note, 0));
        girzohal_sources_url(it, text_of(e, report->url, 0));
        for (size_t mark = report->first_label; mark < report->first_label + report->labels; mark++) {
            const girzohal_label *label = &e->labels[mark];
            size_t start = units_of(source, label->start, it->unit), end = units_of(source, label->end, it->unit);
            if (label->primary) {
                girzohal_sources_primary(it, start, end, text_of(e, label->text, 0));
            } else {
                girzohal_sources_label(it, start, end, text_of(e, label->text, 0));
            }
        }
    }
}
#endif
