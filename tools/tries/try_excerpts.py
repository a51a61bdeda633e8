#!/usr/bin/env python3
"""Compares what the program `girzohal` says of drawings below findings with `excerpt_reader.py`, a second reader of them: labels (places,
texts, primary), notes, helps and kept lines. Read are the rows of `excerpt_rows.py`, which were worked out by hand, the outputs of
examples/, and bodies changed at random.

usage: try_excerpts.py PROGRAM [--open DIR] [--mutants N] [--seed S] [--words]
       try_excerpts.py --reader        (only holds the second reader against the rows)

DIR has a folder for each output: out.txt, src/, and perhaps what the tool itself says of the same source (ref.json, ref.sarif; tool.txt
names the tool). Its labels are counted against those of the program. --mutants: how many bodies are changed (default 2,000). --words: each
word that a tool printed has to be in the drawing. Of a changed body, rows of the source that are more than one row from each label aren't
asked for.

The last line is `N passed, M failed`; the status is 0 if M is 0."""
import argparse
import json
import os
import random
import re
import subprocess
import sys
import tempfile
from collections import Counter
from dataclasses import dataclass, field

sys.dont_write_bytecode = True
import excerpt_reader
import excerpt_refs
import excerpt_rows
import line_reader
from try_lines import span_of

TOP = os.path.dirname(os.path.dirname(os.path.dirname(os.path.abspath(__file__))))
OUTPUTS = os.path.join(TOP, "examples", "outputs")
CHARS = " |^~-_/\\+=.`╰─┬│·:0123abé日\t>"
# Words of heads that a drawing has in another form.
HEADS = set("error warning note help fatal e f w n c r i internal convention refactor hint suggestion info information style remark col line file characters alert usr bin main".split())
SHOWN_FAILURES = 20


def shown(text):
    return text.decode("utf-8", "replace")


@dataclass
class Source:
    """Folders in which names are looked up, as the program does from its root."""
    root: str
    anywhere: bool = False
    unit: str = "characters"  # what columns count
    known: dict = field(default_factory=dict)

    def rows(self, name):
        path = os.path.normpath(os.path.join(self.root, name))
        inside = (path + os.sep).startswith(os.path.normpath(self.root) + os.sep)
        if name not in self.known:
            self.known[name] = None
            if (inside or self.anywhere) and os.path.isfile(path):
                with open(path, encoding="utf-8", errors="replace", newline="") as it:
                    self.known[name] = it.read()
        text = self.known[name]
        return None if text is None else [row.removesuffix("\r") for row in text.split("\n")]

    def column(self, rows, it):
        """The column of a finding in characters."""
        column = it["column"]
        if self.unit == "characters" or column is None or not it["line"] or it["line"] > len(rows):
            return column
        return len(rows[it["line"] - 1].encode()[:max(column - 1, 0)].decode(errors="ignore")) + 1

    def offset(self, name, row, column):
        """The bytes before a character of a row."""
        lines = self.known[name].split("\n")
        return len("\n".join([*lines[:row - 1], lines[row - 1][:column]]).encode())


@dataclass
class Expected:
    """What a report of a finding says."""
    message: str
    labels: list
    note: list
    help: list
    rows: set = field(default_factory=set)  # numbers of the rows that are printed
    it: dict | None = None


class Findings:
    """The findings of a text as the second readers have them."""

    def __init__(self, text, source):
        self.source, self.reader = source, line_reader.Reader(text.encode())
        self.pieces = [(it, at, end) for _, it, at, end in self.reader.pieces()]
        self.sorts = {at: sort for sort, _, at, _ in self.reader.pieces()}

    def are_apart(self):
        """No note is right after a finding, whose report would have it."""
        return not any(it and after[0] and after[0]["aside"] for (it, *_), after in zip(self.pieces, self.pieces[1:]))

    def expected(self):
        """Each finding, and behind it its labels in other files."""
        for it, at, end in self.pieces:
            if it:
                yield from self.of_finding(it, at, [shown(line) for line in self.reader.lines[at:end]])

    def below(self, at):
        """The line that has the message of a finding whose head has none, and whether the finding says all what that line says."""
        sort = self.sorts[at]
        if sort not in ("inline", "spaced", "announced"):
            return None, False
        head = self.reader.begun(at)[1]
        details = self.reader.announced_run(at, head)[1]["details"] if sort == "announced" else self.reader.trail(at + 1, sort == "spaced")[1]
        if head["message"] or not details:
            return None, False
        return shown(details[0]), len(line_reader.retold({**head, "details": details})["details"]) < len(details)

    def excerpt(self, it, at, lines):
        """What is read below a finding; none if it says what one of these lines says."""
        line = it["line"] or None
        return None if self.below(at)[1] else excerpt_reader.read((line, it["column"] if line else None), lines[1:])

    def of_finding(self, it, at, lines):
        name, line = shown(it["name"]), it["line"] or None
        own = (name, line, it["column"] if line else None)
        rows = self.source.rows(name)
        span = self.own_span(name, rows, it) if rows and line else None
        excerpt = self.excerpt(it, at, lines)
        drawn, blocks, numbers, asides = [], [], set(), []
        for block, there in excerpt.drawings(name) if excerpt else ():
            numbers |= {row.number for row in block.rows}
            if there != name:
                found = self.asides(block, there, shown(it["message"]))
                asides += found
                blocks += [block] if found else []
                continue
            found = self.block_labels(block, name, rows, self.aim(span, it)) if span else None
            if found is not None:
                drawn += found
                blocks.append(block)
        said = excerpt.said(own, blocks) if excerpt else {"note": [], "kept": excerpt_reader.kept(lines[1:]), "help": []}
        note = said["note"] + without(self.below(at)[0], said["kept"]) + ([] if span else [placed(own)])
        return [Expected(shown(it["message"]), labels_over(span, drawn) if span else [], note, said["help"], numbers, it), *asides]

    def far_lines(self):
        """The lines that are rows of the source, but more than one row from each label in their file, so that no drawing shows them."""
        for it, at, end in self.pieces:
            excerpt = it and self.excerpt(it, at, [shown(line) for line in self.reader.lines[at:end]])
            parts = {id(part.block): part for part in excerpt.parts} if excerpt else {}
            laid = [(parts[id(block)], there) for block, there in (excerpt.drawings(shown(it["name"])) if excerpt else ()) if self.is_shown(block, there, it)]
            for part, name in laid:
                near = [(row.number, end_row.number) for other, there in laid if there == name for row, end_row in touched_rows(other.block)]
                near += [(it["line"], it["line"])] if name == shown(it["name"]) else []
                lines = [number for number, line in enumerate(part.lines, at + 1 + part.first) if line.kind == "row"]
                yield from (number for number, row in zip(lines, part.block.rows) if not any(start - 1 <= row.number <= last + 1 for start, last in near))

    def is_shown(self, block, there, it):
        """Whether a drawing's labels are drawn over the source."""
        rows = self.source.rows(there)
        if there == shown(it["name"]):
            return bool(rows and it["line"] and self.own_span(there, rows, it)) and self.block_labels(block, there, rows) is not None
        return bool(self.asides(block, there, ""))

    def asides(self, block, there, message):
        """The labels of a drawing in another file as reports, which say what the label says, or else the finding; none if one of its rows isn't
        that file's."""
        rows = self.source.rows(there)
        found = (self.block_labels(block, there, rows) if rows is not None else None) or []
        return [Expected(message if text is None else text, [(start, end, True, None)], [], [], it={"name": there}) for start, end, _, text, _ in found]

    def own_span(self, name, rows, it):
        """The span of the finding itself, in bytes."""
        span = span_of(rows, {**it, "column": self.source.column(rows, it)})
        before = span and ["\n".join(rows).encode()[:at].decode().split("\n") for at in span]
        return before and tuple(self.source.offset(name, len(lines), len(lines[-1])) for lines in before)

    def aim(self, span, it):
        """The span of a finding and how many bytes its tool counts before it, if it counts these."""
        return (span, max(it["column"] - 1, 0)) if self.source.unit == "bytes" and it["column"] is not None else None

    def block_labels(self, block, name, rows, aim=None):
        """The labels of a drawing, in bytes; none if one of its rows isn't the source's. A mark is over the finding, whose span and bytes before it
        `aim` has, if it was set by the number of the column, as if that counted cells, and the finding begins before it in the row."""
        inserts = [excerpt_reader.Label(row, column, row, column, False, "help: " + text) for row, column, text in block.inserts]
        if not all(is_laid(row, rows) for row in block.rows):
            return None
        found = []
        for label in [*block.labels, *inserts]:
            there = excerpt_reader.place_in_source(label, rows)
            start, end = self.source.offset(name, *there[:2]), self.source.offset(name, *there[2:])
            row = (self.source.offset(name, there[0], 0), self.source.offset(name, there[0], len(rows[there[0] - 1])))
            if label.primary and aim and row[0] <= aim[0][0] < start and label.start == over(label.row.text(), aim[1]):
                start, end = aim[0]
            found.append((start, max(start, end), label.primary, label.text, row))
        return found


def touched_rows(block):
    """The first and the last row of each label of a drawing, and of what it inserts."""
    return [(label.row, label.end_row) for label in block.labels] + [(row, row) for row, *_ in block.inserts]


def over(text, cell):
    """The character of a text over a cell."""
    return excerpt_reader.Row(None, "", text, 0).over(cell)


def without(text, lines):
    """Lines without the first that is this text."""
    at = next((at for at, line in enumerate(lines) if line.strip(" \t") == text), len(lines))
    return lines[:at] + lines[at + 1:]


def is_laid(row, rows):
    """Whether a printed row is the source's of its number, which isn't much longer."""
    if row.number is None or not 0 < row.number <= len(rows):
        return False
    source = rows[row.number - 1]
    return len(source.encode()) <= 256 * (1 + len(row.text())) and excerpt_reader.alignment_of(row.text(), source) is not None


def labels_over(span, drawn):
    """The finding's own label, which is as long as it is drawn and has the text there, and the others. It is the first that the tool marks
    at its start, else the first that it marks with its start in it, else the first that it marks in its row."""
    marked = [label for label in drawn if label[2]]
    own = next((it for it in marked if it[0] == span[0]), None) or next((it for it in marked if it[0] <= span[0] < it[1]), None)
    own = own or next((it for it in marked if it[4][0] <= span[0] <= it[4][1]), None)
    return [own[:4] if own else (*span, True, None), *(label[:4] for label in drawn if label is not own)]


def placed(own):
    """What a report without a label says of its place."""
    return "at " + ":".join(str(it) for it in own if it is not None)


def of_report(report, document):
    """A report of a document, as `Expected` has it."""
    labels = [(*label["bytes"], label.get("primary", False), label.get("text")) for label in report.get("labels", [])]
    lines = lambda key: report[key].split("\n") if key in report else []
    return Expected(report["message"], labels, lines("note"), lines("help"), it={"name": document["files"][report["file"]]["name"]})


class Tries:
    def __init__(self, program, words):
        self.program, self.words = os.path.abspath(program), words
        self.passed = self.failed = self.skipped = self.far = 0
        self.refs = Counter()

    def check(self, what, given, expected, text=""):
        if given == expected:
            self.passed += 1
            return
        self.failed += 1
        if self.failed <= SHOWN_FAILURES:
            print(f"FAILED: {what}\n    given:    {given!r}\n    expected: {expected!r}")
            print(*(f"    | {line}" for line in text.split("\n")), sep="\n")

    def run(self, text, form, source, *words):
        anywhere = ["--allow-outside-root"] if source.anywhere else []
        command = [self.program, "--from", "lines", "--to", form, "--fail-on", "never", "--columns", source.unit, "--first-column", "1", "--root", source.root, *anywhere, *words]
        run = subprocess.run(command, input=text.encode(), capture_output=True, timeout=300)
        if run.returncode != 0:
            print(f"status {run.returncode} of {' '.join(command)}: {run.stderr.decode(errors='replace')[:300]}")
        return run.stdout.decode("utf-8", "replace")

    def bodies(self, what, texts, source, are_changed=False):
        """Each text is read between two findings without a body, so that it is known which reports are its own. Gives the reports of each."""
        whole = "".join(f"{text}\n\n{sentinel(number)}\n\n=== {number}\n\n" for number, text in enumerate(texts))
        document = json.loads(self.run(whole, "document", source, "--raw") or '{"files": [], "reports": []}')
        found = [[] for _ in texts]
        ends = {f"sentinel {number}": number for number in range(len(texts))}
        at = 0
        for report in document["reports"]:
            if report["message"] in ends:
                at = ends[report["message"]] + 1
            elif at < len(texts):
                found[at].append(of_report(report, document))
        for number, text in enumerate(texts):
            self.body(f"{what} {number}", text, source, found[number])
        if self.words:
            self.drawn(what, whole, texts, source, are_changed)
        return found

    def body(self, what, text, source, reports):
        findings = Findings(text, source)
        if not findings.are_apart():
            self.skipped += 1
            return
        expected = list(findings.expected())
        self.check(what, [said_by(it) for it in reports], [said_by(it) for it in expected], text)

    def drawn(self, what, whole, texts, source, are_changed):
        """Each word of a text is in what is drawn of it, but for those of far rows in a text that was changed. A finding that is printed
        again isn't drawn again."""
        drawing = self.run(whole, "drawing", source, "--ascii", "--width", "4000", "--no-summary")
        parts, at = [""] * (len(texts) + 1), 0
        for line in drawing.split("\n"):
            it = re.search(r"sentinel (\d+)", line)
            at = int(it[1]) + 1 if it else at
            parts[at] += line + "\n"
        told = set()
        for number, text in enumerate(texts):
            again = printed(text)
            if not again & told:
                far = set(Findings(text, source).far_lines()) if are_changed else set()
                self.far += len(far)
                self.check(f"{what} {number}: words", missing_words(text, parts[number], far), [], text)
            told |= again


def printed(text):
    """The lines of each finding with its notes, by which it is known if it is printed again."""
    reader, found = line_reader.Reader(text.encode()), []
    for _, it, at, end in reader.pieces():
        lines = tuple(reader.lines[at:end])
        if it and it["aside"] and found and found[-1]:
            found[-1] += lines
        else:
            found.append(lines if it else ())
    return set(found) - {()}


def sentinel(number):
    return f"zz.c:1:1: error: sentinel {number}"


def said_by(it):
    return (it.message, sorted(it.labels, key=repr), it.note, it.help)


def words_of(text):
    return re.findall(r"[^\W_]+", text)


def missing_words(text, drawing, far):
    """The words of a text that aren't drawn, but for those of far lines. Heads are drawn in another form, columns in another unit, and
    `<U+200D>` as it is in the source."""
    heads = set()
    for _, it, at, _ in line_reader.Reader(text.encode()).pieces():
        if it:
            heads |= {str(it[key]) for key in ("line", "column", "endline", "endcolumn")}
    near = "\n".join(line for number, line in enumerate(text.split("\n")) if number not in far)
    plain = re.sub(r"<U\+[0-9A-F]+>", "", line_reader.PAINT.sub(b"", near.encode()).decode())
    missing = [word for word in words_of(plain) if word not in drawing]
    return [word for word in missing if word.lower() not in HEADS and (word.lstrip("0") or "0") not in heads]


def findings_of(text):
    """The findings of an output with their lines, each as a text of its own."""
    reader = line_reader.Reader(text.encode())
    for _, it, at, end in reader.pieces():
        if it:
            yield "\n".join(shown(line) for line in reader.lines[at:end])


class Chance:
    """Bodies changed at random, the same for a seed."""

    def __init__(self, seed, pool):
        self.random, self.pool = random.Random(seed), pool

    def text(self):
        text, source = self.random.choice(self.pool)
        lines = text.split("\n")
        for _ in range(self.random.choice([1, 1, 2, 4])):
            if len(lines) > 1:
                self.change(lines, self.random.randrange(1, len(lines)))
        return "\n".join(lines), source

    def any_line(self):
        return self.random.choice(self.random.choice(self.pool)[0].split("\n")[1:])

    def change(self, lines, at):
        line, way = lines[at], self.random.randrange(8)
        cut = self.random.randrange(len(line) + 1)
        if way < 3:
            lines[at] = line[:cut] + self.random.choice(CHARS) * self.random.choice([1, 1, 3]) + line[cut + self.random.randrange(2):]
        elif way == 3:
            lines[at] = line[:cut] + line[cut + self.random.randrange(1, 6):]
        elif way == 4:
            del lines[at]
        elif way == 5:
            lines.insert(at, self.any_line())
        elif way == 6:
            lines.insert(self.random.randrange(1, len(lines) + 1), line)
        else:
            lines[at] = self.any_line()


def put_source(root, name, text):
    path = os.path.join(root, name)
    os.makedirs(os.path.dirname(path), exist_ok=True)
    with open(path, "w", encoding="utf-8", newline="") as it:
        it.write(text)


def row_failures(root):
    """What the second reader has of the rows that isn't what they say."""
    for number, row in enumerate(excerpt_rows.ROWS):
        folder = os.path.join(root, str(number))
        put_source(folder, row.name, row.source)
        for name, text in row.others:
            put_source(folder, name, text)
        findings = Findings(row.output, Source(folder, unit=row.unit))
        found = [(it, findings.excerpt(it, at, list(map(shown, findings.reader.lines[at:end])))) for it, at, end in findings.pieces if it]
        if len(found) != 1 or (found[0][1] is not None) != row.read:
            yield f"{row.what}: findings, and whether each is read: {[excerpt is not None for _, excerpt in found]}"
        elif row.read:
            yield from row_wrong(row, findings, *found[0])


def row_wrong(row, findings, it, excerpt):
    source, own = findings.source, (row.name, it["line"], it["column"])
    drawings = list(excerpt.drawings(row.name))
    rows = source.rows(row.name)
    span = findings.own_span(row.name, rows, it)
    aim = span and findings.aim(span, it)
    drawn = [(block, findings.block_labels(block, row.name, rows, aim)) for block, there in drawings if there == row.name]
    apart = [(block, there, findings.asides(block, there, shown(it["message"]))) for block, there in drawings if there != row.name]
    said = excerpt.said(own, [block for block, labels in drawn if labels is not None] + [block for block, _, found in apart if found])
    asides = [(there, *one.labels[0][:2], one.message) for _, there, found in apart for one in found]
    given = (sorted([label[:4] for _, labels in drawn for label in labels or ()], key=repr), said["note"], said["help"], said["kept"], asides)
    want = [(source.offset(row.name, *label[:2]), source.offset(row.name, *label[2:4]), *label[4:]) for label in row.labels]
    asides = [(name, source.offset(name, *label[:2]), source.offset(name, *label[2:4]), *label[4:]) for name, *label in row.asides]
    want = (sorted(want, key=repr), list(row.note), list(row.help), list(row.kept), asides)
    if given != want:
        yield f"{row.what}:\n    given:    {given}\n    expected: {want}"


def try_rows(tries, root):
    for number, row in enumerate(excerpt_rows.ROWS):
        tries.bodies(f"{row.what}:", [row.output.removesuffix("\n")], Source(os.path.join(root, str(number)), unit=row.unit))


def try_output(tries, what, text, source):
    """Each finding of an output alone. Gives what the program says of each."""
    texts = list(findings_of(text))
    return [(text, reports) for text, reports in zip(texts, tries.bodies(what, texts, source))]


def try_open(tries, folder, pool):
    for name in sorted(os.listdir(folder)):
        case = os.path.join(folder, name)
        if not os.path.isfile(os.path.join(case, "out.txt")):
            continue
        with open(os.path.join(case, "out.txt"), "rb") as it:
            text = line_reader.PAINT.sub(b"", it.read()).replace(b"\r\n", b"\n").decode("utf-8", "replace")
        source = Source(os.path.join(case, "src"), anywhere=True)
        found = try_output(tries, name, text, source)
        pool += [(text, source) for text, _ in found]
        excerpt_refs.count(case, [(Findings(text, source), reports) for text, reports in found], source, tries.refs)


def try_mutants(tries, chance, count):
    by_source = {}
    for text, source in (chance.text() for _ in range(count)):
        by_source.setdefault(source.root, (source, []))[1].append(text)
    for root, (source, texts) in by_source.items():
        for at in range(0, len(texts), 200):
            tries.bodies(f"changed at random ({os.path.basename(os.path.dirname(root)) or root}), from {at}:", texts[at:at + 200], source, are_changed=True)


def main():
    words = argparse.ArgumentParser(usage=__doc__.split("usage: ")[1].split("\n\n")[0])
    words.add_argument("program", nargs="?")
    words.add_argument("--reader", action="store_true")
    words.add_argument("--open")
    words.add_argument("--mutants", type=int, default=2000)
    words.add_argument("--seed", type=int, default=1)
    words.add_argument("--words", action="store_true")
    asked = words.parse_args()
    with tempfile.TemporaryDirectory() as root:
        wrong = list(row_failures(root))
        if asked.reader or not asked.program:
            print(*wrong, f"{len(excerpt_rows.ROWS) - len(wrong)} passed, {len(wrong)} failed", sep="\n")
            sys.exit(1 if wrong else 0)
        tries = Tries(asked.program, asked.words)
        tries.check("the second reader and the rows", wrong, [])
        try_rows(tries, root)
        pool = [(row.output.removesuffix("\n"), Source(os.path.join(root, str(number)), unit=row.unit)) for number, row in enumerate(excerpt_rows.ROWS)]
        for name in sorted(os.listdir(OUTPUTS)):
            if name.endswith(".txt") and not name.endswith("-color.txt"):
                with open(os.path.join(OUTPUTS, name), encoding="utf-8", newline="") as it:
                    source = Source(os.path.join(OUTPUTS, "src"))
                    pool += [(text, source) for text, _ in try_output(tries, name, it.read(), source)]
        if asked.open:
            try_open(tries, asked.open, pool)
            print("labels of the tools' own logs:", ", ".join(f"{tries.refs[key]} {key}" for key in excerpt_refs.KEYS))
        try_mutants(tries, Chance(asked.seed, [it for it in pool if "\n" in it[0]]), asked.mutants)
    if tries.far:
        print(f"{tries.far} rows of changed bodies weren't asked for: no label is near")
    print(f"{tries.passed} passed, {tries.failed} failed" + (f" ({tries.skipped} not compared: notes in them are of a finding above)" if tries.skipped else ""))
    sys.exit(1 if tries.failed else 0)


if __name__ == "__main__":
    main()
