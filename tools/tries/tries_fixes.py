"""Exact edits of tools in the SARIF logs of `girzohal`, tried by `try_girzohal.py`."""
import json
import os

SOURCE = "fn main() {\n    let x = 5\n    let y = 6;\n    let z = 7\n}\n"
HEAD = "error: no such thing\n --> a.rs:2:9\n  |\n2 |     let x = 5\n  |         ^\n  |\n"
# What is printed after the head, and the file with each edit applied alone.
PRINTED = (
    ("a `;` that is marked", "help: end it\n  |\n2 |     let x = 5;\n  |              +\n", ["fn main() {\n    let x = 5;\n    let y = 6;\n    let z = 7\n}\n"]),
    ("a row in place of another", "help: use a word\n  |\n2 -     let x = 5\n2 +     let word = 5\n  |\n",
     ["fn main() {\n    let word = 5\n    let y = 6;\n    let z = 7\n}\n"]),
    ("a row that goes", "help: drop it\n  |\n3 -     let y = 6;\n  |\n", ["fn main() {\n    let x = 5\n    let z = 7\n}\n"]),
    ("a row that comes", "help: add one\n  |\n3 +     let new = 1;\n4 |     let y = 6;\n  |\n",
     ["fn main() {\n    let x = 5\n    let new = 1;\n    let y = 6;\n    let z = 7\n}\n"]),
    ("a row whose old text isn't printed", "help: end it\n  |\n2 ~     let x = 5;\n  |\n", []),
    ("two edits", "help: end it\n  |\n2 |     let x = 5;\n  |              +\nhelp: use a word\n  |\n2 -     let x = 5\n2 +     let word = 5\n  |\n",
     ["fn main() {\n    let x = 5;\n    let y = 6;\n    let z = 7\n}\n", "fn main() {\n    let word = 5\n    let y = 6;\n    let z = 7\n}\n"]),
    ("a row that isn't the file's", "help: use a word\n  |\n2 -     let other = 5\n2 +     let word = 5\n  |\n", []),
    ("no edit", "", []),
)
# A row that turns the direction of writing.
TURNED = "help: use a word\n  |\n2 -     let x = 5\n2 +     let \u202eword = 5\n  |\n"


def place_of(text, line, column):
    """The place in a text of a line and a column, both from 1."""
    at = 0
    for _ in range(line - 1):
        at = text.index("\n", at) + 1
    return at + column - 1


def applied(text, change):
    """The text with the replacements of one change of a file, each counted in the text as it is."""
    for each in sorted(change["replacements"], key=lambda it: -it["deletedRegion"]["startLine"]):
        region = each["deletedRegion"]
        first = place_of(text, region["startLine"], region["startColumn"])
        past = place_of(text, region["endLine"], region["endColumn"])
        text = text[:first] + each["insertedContent"]["text"] + text[past:]
    return text


class FixTries:
    """The tries of this file. `check`, `run` and `room` are those of `Tries`."""

    def fixes_of(self, what, printed, *words):
        """The fixes of the one result, after what SARIF asks of them was checked."""
        said = self.run("--to", "sarif", *words, given=(HEAD + printed).encode())
        run = json.loads(said.stdout)["runs"][0]
        results = run["results"]
        self.check(f"{what}: one result", len(results) == 1, said)
        fixes = results[0].get("fixes", [])
        self.check(f"{what}: no empty list", results[0].get("fixes") != [], said)
        for fix in fixes:
            changes = fix["artifactChanges"]
            self.check(f"{what}: one file is changed", len(changes) == 1 and changes[0]["replacements"], said)
            self.check(f"{what}: it is the result's", changes[0]["artifactLocation"] == {"index": 0, "uri": "a.rs"} and
                       run["artifacts"][0]["location"]["uri"] == "a.rs", said)
        without = json.loads(said.stdout)
        without["runs"][0]["results"][0].pop("fixes", None)
        again = [self.run("--from", "sarif", "--to", "sarif", *words, given=json.dumps(it).encode()).stdout for it in (json.loads(said.stdout), without)]
        self.check(f"{what}: our reader finds the same", again[0] == again[1] != b"", said)
        return fixes

    def try_fixes(self):
        with open(os.path.join(self.room, "a.rs"), "w", encoding="utf-8") as file:
            file.write(SOURCE)
        for what, printed, wanted in PRINTED:
            made = [applied(SOURCE, fix["artifactChanges"][0]) for fix in self.fixes_of(what, printed)]
            self.check(f"the fixes of a log: {what}: {made}", made == wanted)
        self.check("an edit that would be sanitized isn't written", self.fixes_of("a turned row", TURNED) == [])
        raw = self.fixes_of("a turned row, raw", TURNED, "--raw")
        self.check("an edit that would be sanitized is written raw", ["\u202e" in applied(SOURCE, fix["artifactChanges"][0]) for fix in raw] == [True])
