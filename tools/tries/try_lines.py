#!/usr/bin/env python3
"""Compares the program `girzohal` with `line_reader.py`, a second reader of the lines that tools print: what each table row says,
lines of many tools in a row (lines.txt), the outputs of real tools, and lines made at random of the parts of patterns. The rows of
`line_rows.py` are compared with what was worked out by hand.

usage: try_lines.py PROGRAM [LINES [SEED]]      (crates/girzohal/out/girzohal after `rt run` there)

The last line is `N passed, M failed`; the status is 0 if M is 0."""
import glob
import json
import os
import random
import re
import subprocess
import sys
import tempfile

sys.dont_write_bytecode = True
import line_reader
import line_rows

TOP = os.path.dirname(os.path.dirname(os.path.dirname(os.path.abspath(__file__))))
NAMES = ["a.c", "src/b.rs", "/p/C.java", "C:\\d\\e.cs", "my file.py", "é.ts", "<stdin>", "Makefile", "x.f90", "x", "10", "file:///p/a.c", "<a b>", "a:b.c", "host1", "2024-01-02T10"]
SAMPLES = {
    "line": ["1", "3", "12", "0", "03", "4294967295", "4294967296", "", "x"],
    "column": ["1", "5", "80", "0", "05", "4294967295", "4294967296"],
    "endline": ["4", "3", "0"], "endcolumn": ["9", "1", "0"],
    "level": [word.decode() for word in line_reader.LEVELS] + ["Error", "WARNING", "Note", "errors", "error-x", "fatal errors", ""],
    "letter": list("EFWNCRI") + ["X", "e"],
    "small": ["e", "w", "i", "x"],
    "number": ["E501", "F401", "C0103", "R1705", "W6", "TS2304", "CS1002", "MD013", "ABCDEFG1", "A1234567", "E501x", "E"],
    "rule": ["x", "no-undef", "-Wunused", "GHC-88464", "import/order", "a.b", "a b", "a:b"],
    "cop": ["Layout/EmptyLines", "Rails/I18n/Texts", "A/", "/A", "A//B"],
    "program": ["vet", "lua", "/usr/bin/ld", "g++", "a-b.c", "1x"],
    "~": ["", " ", "  ", "\t"],
    "message": ["no such name", "x", "x [y]", "x (no-undef)", "x  (a_b)", "x (y)", "x [error]", "x [warning/y]", "x [Error/no-undef]", "x [W1] (E2)", "parse error : bad",
                "SyntaxError: bad", "Error: x [y]", "[a-b]", "[a b]", "x ", "  required from here", "a.c:3:5: y", "é → z", "*** x", "x (@a/b)", "[*] `os` unused", "undefined x (NameError)", "x\ty  z", ":", "(in f)"],
}
AROUND = ["", "1 error", "    int x;", "        ^", "        ^~~~", "  |", "1 | import os", "  |        ^^", "   3 |     y = 1;", "     |     ~^~", "  symbol: x", "\tat foo", "  = note: more", "  = help: do",
          "note: here", "help: there", "a.js", "  1:2  error  no such  a-b", "  3:4 warning x\tno-y", "  5:6 note z", " --> a.rs:1:2", "  --> b.rs:3:4:", "error[E1]: one", "F401 two", "-->", " ^ x", "~~~^", "/p/a.js", "\x1b[31m", " ",
          "  ╭▸ a.rs:6:13", "   ┌─ a.fun:1:2", "   ╭─[src/a.js:1:7]", "   ╭─[ s.tao:1:23 ]", "   ,-[a.rs:2:3]", "  ::: a.rs:1:2", "  ⸬  a.rs:1:2", "  × eslint(no-x): words", "  ⚠ words", "[E03] Error: words",
          "Error:   × words", "invalid-syntax: x", "   ╰ note: more", "   ├ help: do", "In file included from a.c:1:", "a.h:1:2: note: y", 'fix-it:"a.c":{5:8-5:14}:"x"', "type)  [a-b]", "[a-b]", "        row", "  5:6  error  x  (colons)"]
PAINTS = ["\x1b[1;31m", "\x1b[0m", "\x1b[K", "\x1b]8;;file:///a\x1b\\", "\x1b]8;;\x07", "\x1b(B", "\x1b(", "\x1b[x"]
SHAPES = {
    "lead": ["[{level}] ", "", "", "", "", "{program}: ", " ", "\t"],
    "after": [":{line}:{column}:{endline}:{endcolumn}: ", ":{line}:{column}-{endcolumn}: ", ":({line},{column})-({endline},{endcolumn}): ", ":{line}:{column}: ", ":{line}:{column} - ", ":{line}: ",
              "({line},{column},{endline},{endcolumn}){~}: ", "({line},{column}){~}: ", "({line}){~}: ", "[{line}, {column}]: ", ":[{line},{column}] ", ": line {line}, col {column}, ", ": ({line}, {column}): ",
              ":{line}.{column}-{endline}.{endcolumn}: ", ":{line}.{column}-{endcolumn}: ", ":{line}.{column}: ", ":{line}:0{column}: ", ":{line}:in `{program}': ", ":{line}:in `<{program}>': ", ":{line}:in `block in {program}': "],
    "rest": ["{level}[{rule}]: {message}", "{level} {rule}: {message}", "{level}: [{rule}] {message}", "{level}: {message}", "{level} - {message}", "[{level}] {message}", "[{letter}] {message}",
             "{letter}: [Correctable] {cop}: {message}", "{letter}: {cop}: {message}", "{letter}: {message}", "{number}: {message}", "{number} {level}: {message}", "{number} {message}", "[{number}] {message}",
             "*** {message}", "({number}) {message}", "undefined reference to `{rule}'", "{message}", "{message}", "{level}:", "{level}: [{rule}]", "[{rule}]", "{level}: [{rule}] [x-1]"],
    "own": ["{name}:{line} {message}", "{name}:{line} [{letter}] {message}", "{name}:{line}:{message}", "{name}:{line}:{column}:{level} - {message}", "{small}: {name}:{line}:{column} {message}",
            "{small}: {name}: ({line}, {column}): {message}", "{name}:{line} {number} {level}: {message}", "{name}:{line}:{column} {rule} {message}"],
}


class Chance:
    """Lines made at random, the same for a seed."""

    def __init__(self, seed):
        self.random = random.Random(seed)

    def filled(self, shape):
        text = shape.replace("{name}", self.name())
        for part, samples in SAMPLES.items():
            while "{" + part + "}" in text:
                # earlier samples are likelier: most of those that fit come first
                at = min(self.random.randrange(len(samples)), self.random.randrange(2 * len(samples)))
                text = text.replace("{" + part + "}", samples[at], 1)
        return text

    def name(self):
        return self.random.choice(NAMES[:6] if self.random.random() < 0.7 else NAMES)

    def line(self):
        chance = self.random.random()
        if chance < 0.35:
            return self.random.choice(AROUND)
        if chance < 0.42:
            return self.filled(self.random.choice(SHAPES["own"]))
        text = self.filled(self.random.choice(SHAPES["lead"]) + "{name}" + self.random.choice(SHAPES["after"]) + self.random.choice(SHAPES["rest"]))
        return self.changed(text) if self.random.random() < 0.2 else text

    def changed(self, text):
        """A line with a byte or two too many, too few, or others."""
        at = self.random.randrange(len(text))
        behind = at + self.random.randrange(2)
        return text[:at] + self.random.choice(["", " ", ":", "-", "[", "]", "(", ")", "0", "9", "x", "\t", "T", "/", *PAINTS]) + text[behind:]

    def text(self, count):
        return "".join(self.line() + ("\r\n" if self.random.random() < 0.05 else "\n") for _ in range(count))


def shown(text):
    return text.decode("utf-8", "replace")


def escaped(text, more=""):
    """A text as it is in a line of a problem."""
    for char, letter in [("\\", "\\"), ("\n", "n"), ("\r", "r")] + [(char, letter) for char, letter in [(":", "c"), ("]", "b")] if char in more]:
        text = text.replace(char, "\\" + letter)
    return text


def problem(it):
    """The line of a finding without a source."""
    figures = [it[key] or 0 for key in ("line", "column", "endline", "endcolumn")] if it["line"] else [0] * 4
    code = "[" + escaped(shown(it["code"]), "]") + "]" if it["code"] else ""
    return ":".join([escaped(shown(it["name"]), ":"), *map(str, figures)]) + f": {it['severity']}{code}: {escaped(shown(it['message']))}"


def span_of(rows, it):
    """The span of a finding in rows of characters, by their offsets; none where its row isn't there."""
    if not it["line"] or it["line"] > len(rows):
        return None
    start_of = lambda row: sum(len(text.encode()) + 1 for text in rows[:row])
    at_of = lambda row, column: start_of(row) + len(rows[row][:column].encode())
    row, text = it["line"] - 1, rows[it["line"] - 1]
    column = max(it["column"] - 1, 0) if it["column"] is not None else it.get("caret")
    if column is None:
        inner = text.strip(" \t")
        first = len(text) - len(text.lstrip(" \t"))
        return (at_of(row, first), at_of(row, first + len(inner))) if inner else (at_of(row, len(text)),) * 2
    column, last = min(column, len(text)), (it["endline"] if it["endline"] is not None else it["line"]) - 1
    if it["endcolumn"] is not None and 0 <= last < len(rows):
        end = at_of(last, min(max(it["endcolumn"] - 1, 0) + 1, len(rows[last])))
        return at_of(row, column), max(at_of(row, column), end)
    behind = column
    while behind < len(text) and (text[behind].isalnum() or text[behind] == "_"):
        behind += 1
    return at_of(row, column), at_of(row, max(behind, min(column + 1, len(text))))


class Expected:
    """What the program writes of a text, as the second reader has it. Of the sources all rows are known."""

    def __init__(self, text, tool=None, sources=None):
        self.sources, self.reader = sources or {}, line_reader.Reader(text.encode(), line_reader.TOOLS.get(tool, []))
        self.pieces = list(self.reader.pieces())
        self.kept = [shown(self.reader.lines[at]) for sort, it, at, end in self.pieces if sort == "kept"]
        self.groups = []
        before = False
        for sort, it, at, end in self.pieces:
            if it is not None and it["aside"] and before:
                self.groups[-1].append(it)
            elif it is not None:
                self.groups.append([it])
            before = it is not None

    def problems(self):
        return [problem(it) for group in self.groups for it in group]

    def reports(self):
        return [report for group in self.groups for report in self.group_reports(group)]

    def span(self, it, name):
        rows = self.sources.get(shown(it["name"])) if it["name"] == name else None
        return None if rows is None else span_of(rows, it)

    def group_reports(self, group):
        head = group[0]
        spans = [self.span(it, head["name"]) for it in group]
        if spans[0] is None:
            return [self.alone(it) for it in group]
        labels = [{"span": spans[0]}] + [{"label": shown(it["message"]), "span": span} for it, span in list(zip(group, spans))[1:] if span]
        details = [detail for it, span in zip(group, spans) if span for detail in it["details"]]
        others = [self.alone(it) for it, span in zip(group, spans) if span is None]
        return [self.report(head, labels, details), *others]

    def alone(self, it):
        span = self.span(it, it["name"])
        return self.report(it, [{"span": span}] if span else [], it["details"])

    def report(self, it, labels, details):
        place = "at " + ":".join([shown(it["name"]), *(str(it[key]) for key in ("line", "column") if it["line"] and it[key] is not None)])
        lines = [shown(detail) for detail in details] + ([] if labels else [place])
        return {"message": shown(it["message"]), "severity": it["severity"], "code": shown(it["code"] or b""), "filename": shown(it["name"]), "labels": labels, "note": lines}


def read_reports(text):
    """The reports that the program wrote as JSON, as `Expected.reports` has them."""
    reports = []
    for line in filter(None, text.split("\n")):
        it = json.loads(line)
        labels = []
        for label in it["labels"]:
            span = label["span"]
            labels.append({**({"label": label["label"]} if label.get("label") else {}), "span": (span["offset"], span["offset"] + span["length"])})
        note = it["note"].split("\n") if it.get("note") is not None else []
        note = [re.sub(r" \(not read: [^()]*\)$", "", line) for line in note]
        reports.append({"message": it["message"], "severity": it["severity"], "code": it.get("code", ""), "filename": it["filename"], "labels": labels, "note": note})
    return reports


class Tries:
    def __init__(self, program):
        self.program, self.passed, self.failed = os.path.abspath(program), 0, 0

    def check(self, what, given, expected):
        if given == expected:
            self.passed += 1
            return
        self.failed += 1
        print(f"FAILED: {what}")
        if isinstance(given, list) and isinstance(expected, list):
            at = next((at for at, pair in enumerate(zip(given, expected)) if pair[0] != pair[1]), min(len(given), len(expected)))
            given, expected = given[at:at + 1], expected[at:at + 1]
        print(f"    given:    {given!r}\n    expected: {expected!r}")

    def run(self, text, form, root, tool=None):
        words = ["--from", "lines", "--to", form, "--raw", "--fail-on", "never", "--root", root, *(["--tool", tool] if tool else [])]
        words += ["--columns", "characters", "--first-column", "1"]
        run = subprocess.run([self.program, *words], input=text.encode(), capture_output=True, timeout=60)
        if run.returncode != 0:
            print(f"status {run.returncode} of {' '.join(words)}")
        return run.stdout.decode(), run.stderr.decode()

    def text(self, what, text, root, tool=None, sources=None):
        """Holds the program to what the second reader has of a text: places, kept lines, and whole reports."""
        expected = Expected(text, tool, sources)
        if not sources:
            out, err = self.run(text, "problems", root, tool)
            self.check(f"{what}: problems", lines_in(out), expected.problems())
            self.check(f"{what}: kept lines", lines_in(err), expected.kept)
        given, reports = read_reports(self.run(text, "json", root, tool)[0]), expected.reports()
        self.check(f"{what}: heads of reports", heads_of(given), heads_of(reports))
        if not any(it["details"] or it.get("caret") is not None for group in expected.groups for it in group) and " | " not in text:
            self.check(f"{what}: reports", given, reports)


def heads_of(reports):
    """What heads say; `try_excerpts.py` compares what is made of the lines below them."""
    return [{key: it[key] for key in ("message", "severity", "code", "filename")} for it in reports]


def lines_in(text):
    return text.split("\n")[:-1] if text.endswith("\n") else text.split("\n") if text else []


UNESCAPED = {"\\\\": "\\", "\\n": "\n", "\\r": "\r", "\\t": "\t", "\\e": "\x1b"}


def table():
    """The rows of lines.tsv: a tool, its name as a word or `-`, its line or lines, and what they are read as."""
    with open(os.path.join(TOP, "tools", "tries", "lines.tsv"), encoding="utf-8") as it:
        for row in filter(None, it.read().split("\n")):
            yield [re.sub(r"\\[\\nrte]", lambda found: UNESCAPED[found[0]], cell) for cell in row.split("\t")]


def reading(it):
    figures = " ".join("-" if it[key] is None else str(it[key]) for key in ("line", "column", "endline", "endcolumn"))
    texts = [shown(it["message"]), *(shown(detail) for detail in it["details"])]
    return f"{shown(it['name'])} {figures} {it['severity']} [{shown(it['code'] or b'')}] {' | '.join(texts)}"


def try_table(tries, root):
    """Each row alone: what it says that it is read as is what the second reader has, and what the program writes."""
    for tool, word, line, said in table():
        named = None if word == "-" else word
        expected = Expected(line, named)
        tries.check(f"{tool}: {line!r}", " ; ".join(reading(it) for group in expected.groups for it in group) or "none", said)
        out, err = tries.run(line, "problems", root, named)
        tries.check(f"{tool}: {line!r}, written", lines_in(out), expected.problems())
        tries.check(f"{tool}: {line!r}, kept", lines_in(err), expected.kept)


def try_names(tries, root):
    """The name of each tool of the table may be given, also where nothing else is known of it."""
    for tool in sorted({row[0] for row in table()}):
        run = subprocess.run([tries.program, "--tool", tool, "--root", root], input=b"", capture_output=True, timeout=60)
        tries.check(f"--tool {tool}", (run.returncode, run.stderr), (0, b""))


def main():
    if len(sys.argv) < 2:
        sys.exit(__doc__)
    program, count, seed = sys.argv[1], int((sys.argv[2:3] or ["20000"])[0]), int((sys.argv[3:4] or ["1"])[0])
    tries = Tries(program)
    with tempfile.TemporaryDirectory() as room:
        empty, full = os.path.join(room, "empty"), os.path.join(room, "full")
        os.mkdir(empty)
        try_table(tries, empty)
        try_names(tries, empty)
        line_rows.try_rows(tries, empty, read_reports)
        for path in [os.path.join(TOP, "tools", "tries", "lines.txt"), *sorted(glob.glob(os.path.join(TOP, "examples", "outputs", "*.txt")))]:
            with open(path, encoding="utf-8", newline="") as it:
                tries.text(os.path.basename(path), it.read(), empty)
        rows = [f"let value_{row} = call({row}); \té𝕏 b{row}" for row in range(1, 30)] + ["", "  end  "]
        sources = {name: rows for name in NAMES if not re.match(r"[</]|[A-Z]:|file:|a:", name)}
        for name in sources:
            path = os.path.join(full, name)
            os.makedirs(os.path.dirname(path), exist_ok=True)
            with open(path, "w", encoding="utf-8", newline="") as it:
                it.write("\n".join(rows))
        chance, tools = Chance(seed), [None, None, *line_reader.TOOLS]
        for part in range(max(count // 1000, 1)):
            text, tool = chance.text(min(count, 1000)), tools[part % len(tools)]
            tries.text(f"lines at random {part}, seed {seed}, {tool or 'no tool'}", text, empty, tool)
            tries.text(f"lines at random {part}, seed {seed}, {tool or 'no tool'}, with sources", text, full, tool, sources)
    print(f"{tries.passed} passed, {tries.failed} failed")
    sys.exit(1 if tries.failed else 0)


if __name__ == "__main__":
    main()
