#!/usr/bin/env python3
"""Tries the built program `report` from outside: the rows of document_rows.py, drawing_rows.py and report_rows.py, its limit on
input, the places of its labels, its generated document, and outputs and inputs that fail.

usage: try_report.py PROGRAM      (crates/report/out/report after `rt run` there)

The last line is `N passed, M failed`; the status is 0 where M is 0."""
import json
import os
import subprocess
import sys

sys.dont_write_bytecode = True
import document_rows
import drawing_rows
import report_rows

LIMIT = 64 * 1024 * 1024
MARK = "\ufeff"


def document(source, labels, name="a", **more):
    """A document of one report on one file."""
    return json.dumps({**more, "files": [{"name": name, "source": source}],
                       "reports": [{"file": 0, "message": "m", "labels": labels}]}).encode()


class Tries:
    def __init__(self, program):
        self.program, self.passed, self.failed = program, 0, 0

    def check(self, what, holds, said):
        if holds:
            self.passed += 1
        else:
            self.failed += 1
            print(f"FAILED: {what}: status {said.returncode}, {said.stdout[:300]!r}, {said.stderr[:300]!r}")

    def ends(self, what, status, words=(), given=b"", out=None, err=None):
        """A run ends with the status, and writes exactly these texts where they are said."""
        said = subprocess.run([self.program, *words], input=given, capture_output=True, timeout=120)
        holds = said.returncode == status and (out is None or said.stdout == out) and (err is None or said.stderr == err)
        self.check(what, holds, said)

    def try_limit(self):
        """An input of 64 MiB is read whole; of a longer one no more than a byte past it."""
        blanks = b" " * LIMIT
        self.ends("64 MiB of blanks", 3, given=blanks, out=b"", err=b"report: input is no document\n")
        self.ends("a byte more", 7, given=blanks + b" ", out=b"", err=b"report: input too long\n")
        whole = document("ab", [])
        self.ends("a document of 64 MiB", 0, given=whole + blanks[len(whole):], out=b"\n  x m\n")
        self.ends("a document and a byte more", 7, given=whole + blanks[len(whole) - 1:], out=b"")

    def try_places(self):
        """Labels by bytes, round a byte order mark, and by rows and columns."""
        drawn = "\n  x m\n   ,-[a:1:1]\n 1 | " + MARK + "ab\n   : ^\n   `----\n"
        marked = MARK + "ab"
        refused = subprocess.run([self.program], input=document(marked, [{"bytes": [0, 1]}], version=2), capture_output=True)
        self.check("a label that ends inside the mark",
                   refused.returncode == 1 and b"end is no position" in refused.stderr and not refused.stdout, refused)
        self.ends("a label over the mark", 0, given=document(marked, [{"bytes": [0, 3]}], version=2), out=drawn.encode())
        rows = "\n  x m\n   ,-[a:2:1]\n 1 | ab\n 2 | cd\n   : ^\n   `----\n"
        self.ends("a label by rows", 0, given=document("ab\ncd", [{"start": [2, 1], "end": [2, 2]}]), out=rows.encode())

    def try_made(self):
        """A generated document: how much its drawing is."""
        for count in (0, 1, 5000):
            made = subprocess.run([self.program, "--make", str(count)], capture_output=True, timeout=120)
            self.check(f"--make {count}", made.returncode == 0 and made.stdout.startswith(b"%d reports, " % count)
                       and made.stdout.endswith(b"\n") and not made.stderr, made)
        for word in ("5001", "-1", "x"):
            self.ends(f"--make {word}", 2, ["--make", word], out=b"", err=b"report: bad arguments\n")

    def try_devices(self):
        """A closed output, a full one, an input that is a folder."""
        many = json.dumps({"files": [], "reports": []}).encode()
        self.ends("no reports", 0, given=many, out=b"", err=b"")
        whole = document("ab", [{"start": [1, 1], "end": [1, 2]}])
        if os.path.exists("/dev/full"):
            with open("/dev/full", "wb") as full:
                said = subprocess.run([self.program], input=whole, stdout=full, stderr=subprocess.PIPE)
            said.stdout = b""
            self.check("a full device", said.returncode == 5 and said.stderr == b"report: output failed\n", said)
        folder = os.open("/", os.O_RDONLY)
        said = subprocess.run([self.program], stdin=folder, capture_output=True)
        os.close(folder)
        self.check("an input that is a folder", said.returncode == 4 and said.stderr == b"report: input failed\n", said)

    def try_rows(self):
        """Documents, settings, refusals and words by table."""
        for row in report_rows.rows():
            self.ends(*row)


def main():
    if len(sys.argv) != 2:
        print(__doc__, file=sys.stderr)
        return 2
    tries = Tries(os.path.abspath(sys.argv[1]))
    for row in document_rows.ROWS + drawing_rows.ROWS:
        tries.ends(*row)
    tries.try_limit()
    tries.try_places()
    tries.try_made()
    tries.try_devices()
    tries.try_rows()
    print(f"{tries.passed} passed, {tries.failed} failed")
    return 0 if tries.failed == 0 else 1


if __name__ == "__main__":
    sys.exit(main())
