#!/usr/bin/env python3
"""Compares the exact edits that the program `girzohal` finds in what tools print with the edits that the tools themselves report: each is
applied to the source, and the text that comes of it has to be one that comes of an edit of the tool.

usage: try_fixes.py PROGRAM --open DIR [--missing]

DIR has a folder for each output: out.txt, src/, and what the tool says of the same source, ref.json: rustc's JSON, a value a line, with
`suggested_replacement`, or gcc's JSON with `fixits`. --missing lists the edits of the tools that the program hasn't; most are told in a
label, or by rows that don't say all that goes.

Printed is for each output how many edits are exact, missing and wrong. The last line is `N passed, M failed`: M counts wrong edits; the
status is 0 if it is 0."""
import argparse
import json
import os
import subprocess
import sys


def starts(text):
    """Where each row begins, in bytes; past the last, the end."""
    at = [0]
    for row in text.split(b"\n"):
        at.append(at[-1] + len(row) + 1)
    at[-1] = len(text)
    return at


def applied(text, changes):
    """A text after changes of its bytes from `start` to `end`; none if they overlap."""
    done = len(text)
    for start, end, new in sorted(changes, key=lambda it: it[:2], reverse=True):
        if end > done:
            return None
        text, done = text[:start] + new.encode() + text[end:], start
    return text


class Case:
    """An output with its source."""

    def __init__(self, folder):
        self.folder, self.name, self.known = folder, os.path.basename(folder), {}

    def text(self, name):
        path = os.path.join(self.folder, "src", name)
        if name not in self.known:
            self.known[name] = None
            if os.path.isfile(path):
                with open(path, "rb") as it:
                    self.known[name] = it.read()
        return self.known[name]

    def after(self, edits):
        """The name and the text after each edit: a list of changes (name, start, end, text), all in one file."""
        for edit in edits:
            names = {name for name, *_ in edit}
            if len(names) == 1:
                name = names.pop()
                text = self.text(name)
                if text is not None:
                    yield name, applied(text, [change[1:] for change in edit])

    # ---- what the tool says

    def told(self):
        """The edits of the tool."""
        with open(os.path.join(self.folder, "ref.json"), encoding="utf-8") as it:
            text = it.read()
        for value in values(text):
            yield from self.edits_in(value)

    def edits_in(self, value):
        """The edits of a diagnostic and of those below it: rustc's, cargo's or gcc's."""
        if isinstance(value, list):
            for it in value:
                yield from self.edits_in(it)
        if not isinstance(value, dict):
            return
        if isinstance(value.get("message"), dict):
            yield from self.edits_in(value["message"])
            return
        spans = [it for it in value.get("spans", []) if it.get("suggested_replacement") is not None]
        if spans:
            yield [(it["file_name"], it["byte_start"], it["byte_end"], it["suggested_replacement"]) for it in spans]
            if len(spans) > 1:  # several may be alternatives
                yield from ([(it["file_name"], it["byte_start"], it["byte_end"], it["suggested_replacement"])] for it in spans)
        if value.get("fixits"):
            yield [(it["start"]["file"], self.at(it["start"]), self.at(it["next"]), it["string"]) for it in value["fixits"]]
        for child in value.get("children", []):
            yield from self.edits_in(child)

    def at(self, place):
        text = self.text(place["file"])
        rows = starts(text) if text is not None else []
        return rows[place["line"] - 1] + place["byte-column"] - 1 if place["line"] <= len(rows) else 0

    # ---- what the program finds

    def found(self, program):
        """The edits of the program."""
        with open(os.path.join(self.folder, "out.txt"), "rb") as it:
            text = it.read()
        command = [program, "--from", "lines", "--to", "sarif", "--fail-on", "never", "--root", os.path.join(self.folder, "src")]
        run = subprocess.run(command, input=text, capture_output=True, timeout=300)
        if run.returncode != 0:
            raise SystemExit(f"{self.name}: status {run.returncode}: {run.stderr.decode(errors='replace')[:300]}")
        for log in json.loads(run.stdout)["runs"]:
            for result in log.get("results", []):
                for fix in result.get("fixes", []):
                    yield list(self.changes(fix))

    def changes(self, fix):
        for change in fix["artifactChanges"]:
            name = change["artifactLocation"]["uri"]
            for it in change["replacements"]:
                region = it["deletedRegion"]
                yield name, self.offset(name, region["startLine"], region["startColumn"]), self.offset(name, region["endLine"], region["endColumn"]), it["insertedContent"]["text"]

    def offset(self, name, row, column):
        """Rows are replaced whole: columns are 1."""
        if column != 1:
            raise SystemExit(f"{self.name}: a column {column} in {name}")
        return starts(self.text(name))[row - 1]


def fresh(case, name, text):
    """The first rows of a text that the source hasn't."""
    known = case.text(name).split(b"\n")
    return [row for row in (text or b"").split(b"\n") if row not in known][:3]


def values(text):
    """A JSON value, or one a line among other lines."""
    try:
        yield json.loads(text)
        return
    except ValueError:
        pass
    for line in text.splitlines():
        try:
            yield json.loads(line)
        except ValueError:
            continue


def main():
    parser = argparse.ArgumentParser(description=__doc__, formatter_class=argparse.RawDescriptionHelpFormatter)
    parser.add_argument("program")
    parser.add_argument("--open", required=True)
    parser.add_argument("--missing", action="store_true")
    words = parser.parse_args()
    exact = missing = wrong = 0
    for name in sorted(os.listdir(words.open)):
        case = Case(os.path.join(words.open, name))
        if not os.path.isfile(os.path.join(case.folder, "ref.json")):
            continue
        edits = list(case.told())
        told = list(case.after(edits))
        found = list(case.after(case.found(words.program)))
        bad = [it for it in found if it not in told]
        lost = [it for it in dict.fromkeys(told) if it not in found]
        if told or found:
            print(f"{case.name}: {len(found) - len(bad)} exact, {len(lost)} missing, {len(bad)} wrong")
        for name, text in bad:
            print(f"  WRONG {name}: {fresh(case, name, text)}")
        if words.missing:
            for name, text in lost:
                print(f"  missing {name}: {fresh(case, name, text)}")
        exact, missing, wrong = exact + len(found) - len(bad), missing + len(lost), wrong + len(bad)
    print(f"{missing} edits of the tools are missing")
    print(f"{exact} passed, {wrong} failed")
    return 1 if wrong else 0


if __name__ == "__main__":
    sys.exit(main())
