// girzohal for C++11 and later: draws diagnostics together with the source code.
#ifndef GIRZOHAL_HPP
#define GIRZOHAL_HPP

#include "girzohal.h"

#include <stdexcept>
#include <string>

namespace girzohal {

// The unit in which labels count: bytes of UTF-8, characters (code points), or units of UTF-16.
enum class Unit : uint32_t { bytes = GIRZOHAL_BYTES, characters = GIRZOHAL_CHARACTERS, utf16 = GIRZOHAL_UTF16 };

// Colors and lines, lines without colors, or ASCII only except for the texts themselves.
enum class Theme : uint32_t {
    unicode = GIRZOHAL_UNICODE,
    unicode_nocolor = GIRZOHAL_UNICODE_NOCOLOR,
    none = GIRZOHAL_NONE
};

// How a drawing looks: tab stops are 1 to 16 columns apart, and long texts are filled to `width` columns.
struct Look {
    Theme theme;
    uint32_t tabs;
    size_t width;
    Look(Theme characters = Theme::unicode_nocolor, uint32_t stops = 4, size_t columns = 80)
        : theme(characters), tabs(stops), width(columns) {}
    girzohal_look numbers() const {
        girzohal_look made = {static_cast<uint32_t>(theme), tabs, GIRZOHAL_DRAWING, width};
        return made;
    }
};

// Why nothing was drawn: a status of girzohal.h and its answer.
class DrawError : public std::runtime_error {
public:
    uint32_t status;
    girzohal_answer answer;
    DrawError(uint32_t its_status, const girzohal_answer &its_answer)
        : std::runtime_error(message(its_status, its_answer)), status(its_status), answer(its_answer) {}

private:
    static std::string message(uint32_t its_status, const girzohal_answer &it) {
        static const char *const arrays[] = {"text", "file", "report", "label", "field of the look"};
        const std::string report = "report " + std::to_string(it.report);
        switch (its_status) {
        case GIRZOHAL_WRONG_ARGUMENT:
            if (it.array > GIRZOHAL_LOOK) return "the library has another ABI";
            return std::string(arrays[it.array]) + " " + std::to_string(it.index) + " is wrong";
        case GIRZOHAL_NO_DOCUMENT: return "not a document";
        case GIRZOHAL_REFUSED: break;
        default: return "out of memory";
        }
        if (it.cause == GIRZOHAL_UNKNOWN_FILE) return report + ": there is no such file";
        const std::string label = report + ": label " + std::to_string(it.label) + ": ";
        if (it.cause == GIRZOHAL_START_NO_PLACE) return label + "its start is no place in the source";
        if (it.cause == GIRZOHAL_END_NO_PLACE) return label + "its end is no place in the source";
        return label + "it ends before it starts";
    }
};

class Sources;

// The last report that was added. It may be used until the next one is added.
class Report {
public:
    // Both parts of a code, like "eslint" and "no-undef"; neither may be empty.
    Report &code(const std::string &scope, const std::string &number) {
        girzohal_sources_code(it, scope.c_str(), number.c_str());
        return *this;
    }
    // How to fix it.
    Report &help(const std::string &text) {
        girzohal_sources_help(it, text.c_str());
        return *this;
    }
    // More to know.
    Report &note(const std::string &text) {
        girzohal_sources_note(it, text.c_str());
        return *this;
    }
    // Where to read more.
    Report &url(const std::string &text) {
        girzohal_sources_url(it, text.c_str());
        return *this;
    }
    // A part of the source, from `start` up to `end` in the unit of the sources, from 0.
    Report &label(size_t start, size_t end) {
        girzohal_sources_label(it, start, end, nullptr);
        return *this;
    }
    // The same with a text on it.
    Report &label(size_t start, size_t end, const std::string &text) {
        girzohal_sources_label(it, start, end, text.c_str());
        return *this;
    }
    // The same as the primary label, whose position is in the head of the drawing.
    Report &primary(size_t start, size_t end, const std::string &text) {
        girzohal_sources_primary(it, start, end, text.c_str());
        return *this;
    }

private:
    friend class Sources;
    explicit Report(girzohal_sources *sources) : it(sources) {}
    girzohal_sources *it;
};

// Files that reports are drawn on, and the reports. One thread at a time may use it.
class Sources {
public:
    explicit Sources(Unit unit = Unit::bytes) : it() { it.unit = static_cast<uint32_t>(unit); }
    ~Sources() { girzohal_sources_free(&it); }
    Sources(const Sources &) = delete;
    Sources &operator=(const Sources &) = delete;

    // Adds a file and returns its index, from 0.
    uint32_t add(const std::string &name, const std::string &source) {
        return girzohal_sources_add_bytes(&it, name.data(), name.size(), source.data(), source.size());
    }
    // Begins a report on a file.
    Report error(uint32_t file, const std::string &message) { return report(file, GIRZOHAL_ERROR, message); }
    Report warning(uint32_t file, const std::string &message) { return report(file, GIRZOHAL_WARNING, message); }
    Report advice(uint32_t file, const std::string &message) { return report(file, GIRZOHAL_ADVICE, message); }
    // Drops the reports; the files stay.
    void clear() { girzohal_sources_clear(&it); }

    // The drawings of the reports, one after another. Throws DrawError.
    std::string draw(const Look &look = Look()) {
        girzohal_look numbers = look.numbers();
        return written(girzohal_sources_draw(&it, &numbers));
    }
    // A line of JSON for each report. Throws DrawError.
    std::string json() { return written(girzohal_sources_json(&it)); }

private:
    Report report(uint32_t file, uint32_t severity, const std::string &message) {
        girzohal_sources_report(&it, file, severity, message.c_str());
        return Report(&it);
    }
    std::string written(uint32_t status) const {
        if (status != GIRZOHAL_DONE) throw DrawError(status, it.answer);
        return std::string(it.out, it.out_len);
    }
    girzohal_sources it;
};

} // namespace girzohal
#endif
