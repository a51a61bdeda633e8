"""Counts the labels of the program against what a tool itself says of the same source: rustc's and gcc's JSON, clang's SARIF.

Not counted as wrong, since the drawing doesn't tell it: `empty`, a span without characters, which is drawn as one; `in macros`, spans that
a log places elsewhere; `one too long`, where a log ends a range one character too far."""
import json
import os
import re
from collections import Counter, defaultdict

KEYS = ("compared", "right", "missing", "more", "in macros", "empty", "one too long", "findings unmatched")


def words(text):
    return Counter((text or "").split())


def total(counters):
    return sum(counters, Counter())


class Label:
    """A label of the program in rows and characters of its file."""

    def __init__(self, name, text, label):
        start, end, self.primary, said = label
        self.name, self.text = os.path.basename(name), said or ""
        self.start, self.end = place(text, start), place(text, end)
        self.is_insert = start == end and not self.primary and self.text.startswith("help: ")

    def key(self):
        return (self.name, *self.start, *self.end)

    def bytes_in(self, rows):
        """Its row, and its first byte and the one after its last, from 1."""
        row = rows[self.start[0] - 1]
        return self.start[0], len(row[:self.start[1]].encode()) + 1, len(row[:self.end[1]].encode()) + 1


def place(text, offset):
    before = text.encode()[:offset].split(b"\n")
    return len(before), len(before[-1].decode("utf-8", "replace"))


class Told:
    """A finding, the rows that are printed below it, and the labels that the program has of it."""

    def __init__(self, findings, reports, source):
        expected = next(iter(findings.expected()))
        it = expected.it
        self.it, self.rows, self.message = it, expected.rows, expected.message
        self.labels = []
        for report in reports:
            name = report.it["name"]
            if source.rows(name) is not None:
                labels = report.labels if name == it["name"].decode(errors="replace") else [(*label[:2], False, said_in(report, expected)) for label in report.labels]
                self.labels += [Label(name, source.known[name], label) for label in labels]

    def place(self):
        return self.it["line"], self.it["column"]


def said_in(report, expected):
    """What a label in another file says, which is a report by itself."""
    return "" if report.message == expected.message else report.message


def count(case, found, source, counts):
    tool = read(case, "tool.txt").strip() or os.path.basename(case)
    told = [Told(findings, reports, source) for findings, reports in found if list(findings.expected())]
    log = read(case, "ref.json")
    if tool in ("rustc", "cargo", "clippy") and log:
        Rust(told, counts).all(log)
    elif tool == "gcc" and log:
        of_gcc(log, told, source, counts)
    elif tool == "clang19" and '{"$schema' in read(case, "ref.sarif"):
        of_clang(read(case, "ref.sarif"), told, source, counts)


def read(case, name):
    path = os.path.join(case, name)
    if not os.path.isfile(path):
        return ""
    with open(path, encoding="utf-8", errors="replace") as it:
        return it.read()


class Rust:
    def __init__(self, told, counts):
        self.pool, self.counts, self.seen = defaultdict(list), counts, set()
        for it in told:
            self.pool[it.message.strip()].append(it)

    def all(self, log):
        for line in filter(lambda line: line.startswith("{"), log.split("\n")):
            it = json.loads(line)
            it = it.get("message") if it.get("reason") == "compiler-message" else it
            if isinstance(it, dict) and any(span["is_primary"] for span in it.get("spans", [])):
                self.diagnostic(it)

    def taken(self, it):
        """The finding of a diagnostic, which is of no other one then."""
        first = next((span for span in it["spans"] if span["is_primary"]), None)
        pool = self.pool[it["message"].split("\n")[0].strip()]
        there = first and (first["line_start"], first["column_start"])
        found = next((told for told in pool if told.place() == there), None)
        if found is None and (first is None or any(span.get("expansion") for span in it["spans"])):
            found = next(iter(pool), None)
        if found is not None:
            pool.remove(found)
        return found

    def diagnostic(self, it):
        key, found = json.dumps([it["message"], it["spans"][:1]], sort_keys=True), self.taken(it)
        if found is None:
            self.counts["findings unmatched"] += key not in self.seen
        self.seen.add(key)
        if found is None:
            return
        self.compare(it, found)
        for child in it["children"]:
            if any(span.get("suggested_replacement") is None for span in child["spans"]):
                found = self.taken(child)
                if found:
                    self.compare({**child, "children": []}, found)
                else:
                    self.counts["findings unmatched"] += 1

    def compare(self, it, told):
        macro = any(span.get("expansion") for span in it["spans"])
        want, ours = defaultdict(list), defaultdict(list)
        for span in it["spans"]:
            want[span_key(span)].append(span)
        for label in told.labels:
            if not label.is_insert:
                ours[label.key()].append(label)
        helps = [(child["message"], span["suggested_replacement"]) for child in it["children"] for span in child["spans"] if span.get("suggested_replacement") is not None]
        for key, spans in want.items():
            mine = ours.pop(key, None)
            self.counts["compared"] += 1
            if mine and is_right(mine, spans, helps):
                self.counts["right"] += 1
            elif macro or key[1:3] == key[3:5]:
                self.counts["in macros" if macro else "empty"] += 1
                if not macro:
                    ours.pop((*key[:4], key[4] + 1), None) or ours.pop((*key[:2], key[2] - 1, *key[3:]), None)
            else:
                self.counts["missing"] += 1
        proposed = {span_key(span) for child in it["children"] for span in child["spans"] if span.get("suggested_replacement") is not None}
        self.counts["in macros" if macro else "more"] += len(set(ours) - proposed)


def span_key(span):
    return (os.path.basename(span["file_name"]), span["line_start"], span["column_start"] - 1, span["line_end"], span["column_end"] - 1)


def is_right(labels, spans, helps):
    """A label says the same as all spans at its place, perhaps with a help that is drawn beside it."""
    have, need = total(words(label.text) for label in labels), total(words(span["label"]) for span in spans)
    if not need and any(label.text.startswith(f"help: {message}") for label in labels for message, _ in helps):
        return True
    inline = total(words(f"help: {message} help: {message}: `{text}`") for message, text in helps)
    same = have == need or not have - need - inline
    return same and any(label.primary for label in labels) == any(span["is_primary"] for span in spans)


def cells(ranges):
    return {(row, at) for row, start, end in ranges for at in range(start, max(end, start + 1))}


def flat(diagnostics):
    for it in diagnostics:
        yield it
        yield from flat(it.get("children", []))


def of_gcc(log, told, source, counts):
    first_word = lambda text: (text.split() or [""])[0]
    pool = defaultdict(list)
    for it in told:
        pool[(*it.place(), first_word(it.message))].append(it)
    for it in flat([one for line in log.split("\n") if line.startswith("[") for one in json.loads(line)]):
        if not it["locations"]:
            continue
        caret = it["locations"][0]["caret"]
        same = pool[(caret["line"], caret["column"], first_word(it["message"]))]
        if not same:
            counts["findings unmatched"] += 1
            continue
        found = same.pop(0)
        if found.rows:
            gcc_locations(it, found, source, counts)


def gcc_locations(it, found, source, counts):
    rows = source.rows(it["locations"][0]["caret"]["file"]) or []
    ours = [(*label.bytes_in(rows), label.text) for label in found.labels if not label.is_insert]
    want = []
    for location in it["locations"]:
        start, end = location.get("start", location["caret"]), location.get("finish", location["caret"])
        if start["line"] != end["line"] or start["line"] not in found.rows or start["file"] != location["caret"]["file"] or not rows:
            continue
        raw, at = rows[end["line"] - 1].encode(), end["byte-column"] - 1
        if at > len(raw):
            continue
        length = len(raw[at:].decode("utf-8", "replace")[:1].encode())
        want.append((start["line"], start["byte-column"], at + 1 + length, " ".join(location.get("label", "").split())))
    covered = cells(label[:3] for label in ours)
    for one in want:
        counts["compared"] += 1
        right = one in [(*label[:3], " ".join(label[3].split())) for label in ours] or not one[3] and cells([one[:3]]) <= covered
        counts["right" if right else "missing"] += 1
    # (what a fix-it would remove is marked too, without a text)
    fixed = cells(label[:3] for label in ours if not label[3])
    for row in {one[0] for one in want}:
        more = cells(label[:3] for label in ours if label[0] == row) - cells(one[:3] for one in want) - fixed
        counts["more"] += bool(more)


def of_clang(log, told, source, counts):
    log = json.JSONDecoder().raw_decode(log[log.index('{"$schema'):])[0]
    pool = defaultdict(list)
    for it in told:
        pool[(it.it["line"], re.sub(r" \[-W[^\]]*\]$", "", it.message))].append(it)
    for result in log["runs"][0]["results"]:
        regions = [it["physicalLocation"]["region"] for it in result.get("locations", [])]
        same = regions and pool[(regions[-1]["startLine"], result["message"]["text"])]
        if not same:
            counts["findings unmatched"] += bool(regions)
            continue
        found = same.pop(0)
        if found.rows:
            counts[clang_regions(regions, found)] += 1
            counts["compared"] += 1


def clang_regions(regions, found):
    """Whether all characters that clang's log has are marked, and no others."""
    one_row = [it for it in regions if it.get("endLine", it["startLine"]) == it["startLine"]]
    ours = cells((label.start[0], label.start[1] + 1, label.end[1] + 1) for label in found.labels if not label.is_insert)
    want = cells((it["startLine"], it["startColumn"], max(it.get("endColumn", 0), it["startColumn"] + 1)) for it in one_row if it["startLine"] in found.rows)
    inserted = any(label.is_insert for label in found.labels)
    if want <= ours and (len(one_row) < len(regions) or ours == want or inserted):
        return "right"
    long = not ours - want and all((row, at + 1) not in want and (row, at - 1) in ours for row, at in want - ours)
    return "one too long" if long else "missing"
