// The headers in C++: the examples in vectors, empty vectors, whose data() is NULL, and girzohal::Sources.
#include "check.h"
#include "build.h"
#include "girzohal.hpp"

#include <string>
#include <vector>

static std::string drawn(const example &e, const girzohal_look &look) {
    std::vector<girzohal_file> files(e.files, e.files + e.files_len);
    std::vector<girzohal_report> reports(e.reports, e.reports + e.reports_len);
    std::vector<girzohal_label> labels(e.labels, e.labels + e.labels_len);
    std::vector<uint8_t> texts(e.texts, e.texts + e.texts_len), out;
    girzohal_answer answer;
    for (;;) {
        uint32_t status = girzohal_draw_or_empty(texts.data(), texts.size(), files.data(), files.size(), reports.data(),
                                                 reports.size(), labels.data(), labels.size(), &look, out.data(),
                                                 out.size(), &answer);
        if (status == GIRZOHAL_DONE) return std::string(out.begin(), out.begin() + answer.needed);
        if (status != GIRZOHAL_BUFFER_TOO_SMALL) return "status " + std::to_string(status);
        out.resize(answer.needed);
    }
}

static std::string drawn_document(const std::string &document, const girzohal_look &look) {
    std::vector<uint8_t> said(document.begin(), document.end()), out;
    girzohal_answer answer;
    for (;;) {
        uint32_t status =
            girzohal_document_or_empty(said.data(), said.size(), &look, out.data(), out.size(), &answer);
        if (status == GIRZOHAL_DONE) return std::string(out.begin(), out.begin() + answer.needed);
        if (status != GIRZOHAL_BUFFER_TOO_SMALL) return "status " + std::to_string(status);
        out.resize(answer.needed);
    }
}

static std::string in_range(const example &e, girzohal_text range) {
    return std::string(e.texts + range.start, e.texts + range.end);
}

// an example by the class, with labels in characters
static std::string drawn_by_class(const example &e, girzohal::Sources &sources) {
    for (size_t at = 0; at < e.files_len; at++) sources.add(in_range(e, e.files[at].name), in_range(e, e.files[at].source));
    for (size_t at = 0; at < e.reports_len; at++) {
        const girzohal_report &from = e.reports[at];
        const std::string source = in_range(e, e.files[from.file].source), message = in_range(e, from.message);
        girzohal::Report report = from.severity == GIRZOHAL_ERROR     ? sources.error(from.file, message)
                                  : from.severity == GIRZOHAL_WARNING ? sources.warning(from.file, message)
                                                                      : sources.advice(from.file, message);
        if (from.scope.start != SIZE_MAX && from.number.start != SIZE_MAX)
            report.code(in_range(e, from.scope), in_range(e, from.number));
        if (from.help.start != SIZE_MAX) report.help(in_range(e, from.help));
        if (from.note.start != SIZE_MAX) report.note(in_range(e, from.note));
        if (from.url.start != SIZE_MAX) report.url(in_range(e, from.url));
        for (size_t mark = from.first_label; mark < from.first_label + from.labels; mark++) {
            const girzohal_label &label = e.labels[mark];
            size_t start = units_of(source.data(), label.start, GIRZOHAL_CHARACTERS);
            size_t end = units_of(source.data(), label.end, GIRZOHAL_CHARACTERS);
            if (label.text.start == SIZE_MAX) {
                report.label(start, end);
            } else if (label.primary) {
                report.primary(start, end, in_range(e, label.text));
            } else {
                report.label(start, end, in_range(e, label.text));
            }
        }
    }
    return sources.draw(girzohal::Look(girzohal::Theme::none));
}

template <class Call> static std::string error_of(Call call) {
    try {
        call();
        return "no error";
    } catch (const girzohal::DrawError &error) {
        return error.what();
    }
}

static void try_class() {
    for (const example &e : examples) {
        girzohal::Sources sources(girzohal::Unit::characters);
        check(e.name, "is drawn by the class", drawn_by_class(e, sources) == std::string(e.drawing, e.drawing_len));
        check(e.name, "is JSON by the class", sources.json().substr(0, 1) == "{");
        sources.clear();
        check(e.name, "without reports, nothing is drawn", sources.draw().empty());
    }
    girzohal::Sources sources(girzohal::Unit::utf16);
    sources.add("a.txt", "\360\237\221\215x");
    sources.error(0, "m").label(0, 2).label(1, 2, "inside");
    check("a start inside a character", "is an error",
          error_of([&] { sources.draw(); }) == "report 0: label 1: its start is no place in the source");
    sources.clear();
    sources.error(1, "m");
    check("a file that isn't there", "is an error", error_of([&] { sources.draw(); }) == "report 0 is wrong");
    sources.clear();
    check("tab stops", "are an error", error_of([&] { sources.draw(girzohal::Look(girzohal::Theme::none, 17)); })
                                           == "field of the look 1 is wrong");
}

int main() {
    try_class();
    const girzohal_look look = {GIRZOHAL_NONE, 4, GIRZOHAL_DRAWING, 80};
    for (const example &e : examples) {
        const std::string drawing(e.drawing, e.drawing_len), document(e.document, e.document_len);
        check(e.name, "is drawn", drawn(e, look) == drawing);
        check(e.name, "is drawn out of its document", drawn_document(document, look) == drawing);
    }
    check("an empty vector", "is no document", drawn_document("", look) == "status 3");
    example empty = examples[0];
    empty.texts_len = empty.files_len = empty.reports_len = empty.labels_len = 0;
    check("empty vectors", "are drawn as nothing", drawn(empty, look).empty());
    example no_files = examples[0];
    no_files.files_len = 0;
    check("no files", "make the report wrong", drawn(no_files, look) == "status 2");
    check("no text", "is both ends at the last number",
          girzohal_no_text().start == SIZE_MAX && girzohal_no_text().end == SIZE_MAX);
    return summary("vectors");
}
