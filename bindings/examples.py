#!/usr/bin/env python3
"""Writes the examples of the repository as tables for the tests in C and in Rust.

usage: examples.py [--check]   (run anywhere; with --check nothing is written, and the status is 1 where a table is old)

Each examples/NAME.json becomes plain arrays in c/tests/examples.h and calls of the builder in rust/girzohal/tests/examples/mod.rs,
with labels by bytes, and beside them the document itself and the drawing of examples/NAME.txt (theme `none`, 80 columns,
tab stops 4 apart)."""
import json
import os
import sys

HERE = os.path.dirname(os.path.abspath(__file__))
EXAMPLES = os.path.join(HERE, "..", "examples")
SEVERITIES = ("advice", "warning", "error")


def byte_of(source, place):
    """The offset in bytes of a row and a column, both from 1; a byte order mark at the beginning is no column."""
    row, column = place
    at = 0
    while row > 1:
        at += 2 if source.startswith("\r\n", at) else 1
        if source[at - 1] in "\r\n":
            row -= 1
    if at == 0 and source.startswith("\ufeff"):
        at = 1
    return len(source[: at + column - 1].encode())


def ends(document, report, label):
    source = document["files"][report["file"]]["source"]
    if "bytes" in label:
        return tuple(label["bytes"])
    return byte_of(source, label["start"]), byte_of(source, label["end"])


def examples():
    for name in sorted(f[:-5] for f in os.listdir(EXAMPLES) if f.endswith(".json")):
        with open(os.path.join(EXAMPLES, name + ".json"), encoding="utf-8", newline="") as file:
            document = file.read()
        with open(os.path.join(EXAMPLES, name + ".txt"), encoding="utf-8", newline="") as file:
            yield name, document, file.read()


# ---- C


def c_text(text):
    """A string of C; each byte past ASCII, and each control, by three octal digits, so that no digit runs into it."""
    said = "".join(
        chr(b) if 32 <= b < 127 and chr(b) not in '"\\?' else "\\%03o" % b for b in text.encode()
    )
    pieces, at = [], 0
    while at < len(said):
        end = min(at + 90, len(said))
        while end < len(said) and "\\" in said[end - 3 : end]:
            end -= 1
        pieces.append(said[at:end])
        at = end
    return "\n    ".join(f'"{piece}"' for piece in pieces) or '""'


class Texts:
    """The buffer of texts, as it grows."""

    def __init__(self):
        self.whole = ""

    def put(self, text):
        if text is None:
            return "{SIZE_MAX, SIZE_MAX}"
        start = len(self.whole.encode())
        self.whole += text
        return "{%d, %d}" % (start, len(self.whole.encode()))


def c_table(name, text, drawing):
    word, texts, document = name.replace("-", "_"), Texts(), json.loads(text)
    files = ["{%s, %s}" % (texts.put(f["name"]), texts.put(f["source"])) for f in document["files"]]
    reports, labels = [], []
    for report in document["reports"]:
        first = len(labels)
        for label in report.get("labels", []):
            start, end = ends(document, report, label)
            labels.append("{%d, %d, %s, %d}" % (start, end, texts.put(label.get("text")), label.get("primary", False)))
        said = [texts.put(report.get(key)) for key in ("message", "scope", "number", "help", "note", "url")]
        severity = SEVERITIES.index(report.get("severity", "error"))
        reports.append("{%d, %d, %s, %d, %d}" % (report["file"], severity, ", ".join(said), first, len(labels) - first))
    rows = [f"static const char {word}_texts[] =\n    {c_text(texts.whole)};"]
    for kind, found in (("file", files), ("report", reports), ("label", labels)):
        rows.append("static const girzohal_%s %s_%ss[] = {\n    %s};" % (kind, word, kind, ",\n    ".join(found)))
    rows.append(f"static const char {word}_document[] =\n    {c_text(text)};")
    rows.append(f"static const char {word}_drawing[] =\n    {c_text(drawing)};")
    return "\n".join(rows)


def c_header():
    rows = ["/* The examples of the repository as plain arrays. Made by bindings/examples.py: don't edit. */"]
    rows += ["#ifndef GIRZOHAL_EXAMPLES_H", "#define GIRZOHAL_EXAMPLES_H", '#include "girzohal.h"', ""]
    names = []
    for name, document, drawing in examples():
        rows += [c_table(name, document, drawing), ""]
        names.append(name)
    rows += ["typedef struct {", "    const char *name, *texts;", "    size_t texts_len;"]
    for kind in ("file", "report", "label"):
        rows.append(f"    const girzohal_{kind} *{kind}s;\n    size_t {kind}s_len;")
    rows += ["    const char *document;", "    size_t document_len;"]
    rows += ["    const char *drawing;", "    size_t drawing_len;", "} example;", ""]
    rows += ["#define COUNT(array) (sizeof(array) / sizeof((array)[0]))", "static const example examples[] = {"]
    for name in names:
        w = name.replace("-", "_")
        arrays = ", ".join(f"{w}_{kind}s, COUNT({w}_{kind}s)" for kind in ("file", "report", "label"))
        rows.append(f'    {{"{name}", {w}_texts, sizeof {w}_texts - 1, {arrays},')
        rows.append(f"     {w}_document, sizeof {w}_document - 1, {w}_drawing, sizeof {w}_drawing - 1}},")
    return "\n".join(rows + ["};", "#endif", ""])


# ---- Rust


def rust_text(text):
    return '"' + "".join(c if 32 <= ord(c) < 127 and c not in '"\\' else "\\u{%x}" % ord(c) for c in text) + '"'


def rust_report(document, report):
    rows = [f"Report::{report.get('severity', 'error')}({rust_text(report['message'])})"]
    rows.append(f".file({report['file']})")
    for key in ("scope", "number", "help", "note", "url"):
        if key in report:
            rows.append(f".{key}({rust_text(report[key])})")
    for label in report.get("labels", []):
        start, end = ends(document, report, label)
        made = f"Label::new({start}..{end})"
        if "text" in label:
            made += f".text({rust_text(label['text'])})"
        if label.get("primary"):
            made += ".primary()"
        rows.append(f".with_label({made})")
    return "\n        ".join(rows)


def rust_module():
    rows = ["// The examples of the repository, as calls of the builder. Made by bindings/examples.py: don't edit."]
    rows += ["use girzohal::{Label, Report, Sources};", ""]
    rows += ["pub struct Example {", "    pub name: &'static str,", "    pub sources: Sources,", "    pub reports: Vec<Report>,"]
    rows += ["    pub document: &'static str,", "    pub drawing: &'static str,", "}", ""]
    names = []
    for name, text, _ in examples():
        word, document = name.replace("-", "_"), json.loads(text)
        names.append(word)
        rows += [f"fn {word}() -> Example {{", "    let mut sources = Sources::new();"]
        rows += [f"    sources.add({rust_text(f['name'])}, {rust_text(f['source'])});" for f in document["files"]]
        rows.append("    let reports = vec![")
        rows += [f"        {rust_report(document, r)}," for r in document["reports"]]
        rows += ["    ];", "    Example {", f"        name: {rust_text(name)},", "        sources,", "        reports,"]
        rows += [f'        document: include_str!("../../../../../examples/{name}.json"),']
        rows += [f'        drawing: include_str!("../../../../../examples/{name}.txt"),', "    }", "}", ""]
    rows += ["pub fn examples() -> Vec<Example> {", "    vec![" + ", ".join(f"{name}()" for name in names) + "]", "}", ""]
    return "\n".join(rows)


def main():
    old = []
    for path, made in (("c/tests/examples.h", c_header()), ("rust/girzohal/tests/examples/mod.rs", rust_module())):
        where = os.path.join(HERE, path)
        kept = open(where, encoding="utf-8").read() if os.path.exists(where) else ""
        if kept == made:
            continue
        old.append(path)
        if "--check" not in sys.argv:
            os.makedirs(os.path.dirname(where), exist_ok=True)
            with open(where, "w", encoding="utf-8") as file:
                file.write(made)
    print("\n".join(("old: " if "--check" in sys.argv else "written: ") + path for path in old), end="\n" if old else "")
    sys.exit(1 if old and "--check" in sys.argv else 0)


if __name__ == "__main__":
    main()
