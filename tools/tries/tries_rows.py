"""Rows that are too long to be drawn by `girzohal`, tried by `try_girzohal.py`."""
import json
import os

# A minified file: one row of 480 KB, with two findings far apart.
UNIT = b"var a=1;"
MINIFIED = UNIT * 60000
AT = (1005, 400005)
FOUND = b"".join(b"min.js:1:%d: error: no such name %d [x]\n" % (column, column) for column in AT)
TOLD = b"row 1 has 480000 columns, which is more than 1000 (--max-row)"
# Rows and how many columns each has: bytes, without the row's end.
ROWS = ((b"a" * 20, 20), (b"a" * 21, 21), ("é".encode() * 10, 20), ("é".encode() * 10 + b"a", 21), ("漢".encode() * 7, 21), ("漢".encode() * 6 + b"ab", 20),
        ("😀".encode() * 5, 20), (b"\t" * 20, 20), (b"\t" * 21, 21), (b"a\t" * 10, 20))
ENDS = (b"", b"\n", b"\r\n", b"\r", b"\nb\n", b"\r\nb\r\n", b"\rb\r", b"\n\n", b"\n\r")
LABELS = ({"start": [3, 8], "end": [3, 9], "text": "second"}, {"start": [1, 1], "end": [1, 2], "text": "first"}, {"start": [3, 2], "end": [3, 4]})


def words_in(text):
    """The text with one blank in place of each run of them, since drawings are wrapped and indented."""
    return b" ".join(text.split())


class LongRowTries:
    """The tries of this file. `check`, `ends`, `run` and `room` are those of `Tries`."""

    def row_file(self, name, text):
        with open(os.path.join(self.room, name), "wb") as file:
            file.write(text)

    def drawn(self, *words, given):
        return self.run("--ascii", "--width", "200", *words, given=given)

    def is_drawn(self, *words, given):
        """Whether the rows of the one finding are drawn."""
        said = self.drawn(*words, given=given)
        drawn, told = b" | " in said.stdout, b"(--max-row)" in said.stdout
        self.check(f"rows are drawn, or it is told why not: {' '.join(words)}", drawn != told, said)
        return drawn

    def try_minified(self):
        """A file of one row of 480 KB: what is told in place of the row."""
        self.row_file("min.js", MINIFIED)
        said = self.drawn(given=FOUND)
        words = words_in(said.stdout)
        self.check("a minified file: the status", said.returncode == 1, said)
        self.check("a minified file: few bytes are written", len(said.stdout) < 2000 and UNIT not in said.stdout, said)
        self.check("a minified file: how long the row is, for each finding", words.count(TOLD) == 2, said)
        for column in AT:
            self.check(f"a minified file: the message and the code, {column}", b"x: no such name %d" % column in words, said)
            self.check(f"a minified file: the place, {column}", words.count(b"at min.js:1:%d " % column) == 1, said)
        said = self.drawn("--max-row", "0", given=FOUND)
        self.check("a minified file: 0 draws it", said.stdout.count(MINIFIED) == 2 and b"(--max-row)" not in said.stdout, said)
        self.check("a minified file: 0 draws it: the places", all(b"[min.js:1:%d]" % column in said.stdout for column in AT))
        for most, drawn in ((b"479999", False), (b"480000", True)):
            said = self.drawn("--max-row", most.decode(), given=FOUND)
            self.check(f"a minified file: --max-row {most.decode()}", (MINIFIED in said.stdout) == drawn and (b"more than %s (" % most in said.stdout) != drawn)
        for form in ("github", "gitlab", "problems", "checkstyle", "junit", "stylish", "json", "document", "sarif"):
            made = [self.run("--to", form, *words, given=FOUND).stdout for words in ((), ("--max-row", "0"), ("--max-row", "5"))]
            self.check(f"a minified file: {form} is the same", made[0] == made[1] == made[2] != b"")
        made = self.run("--to", "github", given=FOUND).stdout
        self.check("a minified file: github keeps the columns", all(b"col=%d," % column in made for column in AT))
        page = self.run("--to", "html", given=FOUND).stdout
        self.check("a minified file: a page tells it too", page.count(b"(--max-row)") == 2 and len(page) < 20000)

    def try_row_lengths(self):
        """Just as many columns as the limit, and one more; a row's end counts for none."""
        for text, columns in ROWS:
            for end in ENDS:
                self.row_file("row.txt", text + end)
                line = b"row.txt:1:1: error: here\n"
                drawn = [self.is_drawn("--max-row", str(most), given=line) for most in (columns - 1, columns, columns + 1, 0)]
                self.check(f"a row of {columns} columns: {text + end!r}: {drawn}", drawn == [False, True, True, True])
        for text, drawn in ((b"a" * 1000, True), (b"a" * 1001, False)):
            self.row_file("row.txt", text + b"\n")
            self.check(f"a row of {len(text)} columns, where nothing is asked for", self.is_drawn(given=b"row.txt:1:1: error: here\n") == drawn)

    def try_rows_around(self):
        """Rows above and below a label are drawn, so they count; those further away don't."""
        for at, long in ((1, 1), (1, 2), (2, 1), (2, 3), (1, 3), (3, 1), (5, 3)):
            rows = [b"b" * 21 if row == long else b"a" for row in range(1, 7)]
            self.row_file("row.txt", b"\n".join(rows) + b"\n")
            said = self.drawn("--max-row", "20", given=b"row.txt:%d:1: error: here\n" % at)
            self.check(f"a label in row {at}, row {long} is long", (b"(--max-row)" in said.stdout) == (abs(at - long) < 2), said)
            if abs(at - long) < 2:
                told = b"at row.txt:%d:1 row %d has 21 columns, which is more than 20 (--max-row)" % (at, long)
                self.check(f"a label in row {at}, row {long} is long: what is told", told in words_in(said.stdout), said)

    def try_undrawn_parts(self):
        """The head, the help, the note and the texts of the labels stay, in order."""
        report = {"file": 0, "severity": "warning", "scope": "style", "number": "12", "message": "Name is short", "labels": LABELS,
                  "help": "Use a word.", "note": "Short names are for loops."}
        made = json.dumps({"files": [{"name": "a.js", "source": "foo\n\n" + "é" * 600 + "\n"}], "reports": [report]}).encode()
        said = self.drawn(given=made)
        words = words_in(said.stdout).decode()
        self.check("what stays: the head", "style(12): Name is short" in words, said)
        self.check("what stays: the help", "help: Use a word." in words, said)
        parts = ("note: Short names are for loops.", "at a.js:3:15: second", "at a.js:1:1: first", "at a.js:3:3", "row 3 has 1200 columns, which is more than 1000 (--max-row)")
        self.check("what stays: the note, the labels in order, and the row", " ".join(parts) in words, said)
        self.check("what stays: no row", "éé" not in words and "foo" not in words, said)
        said = self.drawn("--max-row", "1200", given=made)
        self.check("what stays: all of it where the row isn't too long", "é".encode() * 600 in said.stdout and b"(--max-row)" not in said.stdout, said)
        unlabelled = json.dumps({"files": [{"name": "a.js", "source": "é" * 600}], "reports": [{**report, "labels": []}]}).encode()
        self.check("a report without labels has no row", b"(--max-row)" not in self.drawn(given=unlabelled).stdout)

    def try_long_rows(self):
        for words, why in ((("--max-row", "x"), b"--max-row: expected a number from 0, not 'x'"), (("--max-row", "-1"), b"a number from 0"),
                           (("--max-row=",), b"a number from 0"), (("--max-row",), b"--max-row needs a value: a number from 0")):
            self.ends("a limit of rows that is none", 2, *words, err=why)
        for each in (self.try_minified, self.try_row_lengths, self.try_rows_around, self.try_undrawn_parts):
            each()
