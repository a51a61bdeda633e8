#!/usr/bin/env python3
"""Tries the program `girzohal` on outputs of builds that enter and leave directories: for each finding the name that it has from the root, in
drawings and annotations, which are written as lines come, in a document, and in a document of two FILEs; as a baseline, lines leave nothing of
themselves. The tree is made here, and the names that are expected were worked out by hand.

usage: try_dirs.py PROGRAM

The last line is `N passed, M failed`; the status is 0 if M is 0."""
import json
import os
import re
import subprocess
import sys
import tempfile
from typing import NamedTuple

SECRET = "int secret_of_another_project;\n"
# below the root; each text has its own name
FILES = ("main.c", "a/main.c", "a/same.c", "b/same.c", "lib/util.c", "lib/deep/x.c", "build/gen.c", "with blank/sp.c",
         *(f"many/d{k}/f{k}.c" for k in range(70)))
OTHER = "make: Entering directory 'b'\nsame.c:1:5: error: of the other file\n"


class Case(NamedTuple):
    what: str
    lines: str  # {root} and {out} are the folders
    names: dict  # of each message
    words: tuple = ()


CASES = (
    Case("no line enters a directory", """\
make: Nothing to be done for 'all'.
util.c:1:5: error: not sought
lib/util.c:1:5: error: from the start
""", {"not sought": "util.c", "from the start": "lib/util.c"}),
    Case("levels, and directories that are left", """\
make: Entering directory '{root}'
make[1]: Entering directory '{root}/lib'
util.c:1:5: error: in lib
make[2]: Entering directory '{root}/lib/deep'
x.c:1:5: error: in deep
util.c:1:5: error: in the one around
make[2]: Leaving directory '{root}/lib/deep'
x.c:1:5: error: it was open
make[1]: Leaving directory '{root}/lib'
util.c:1:5: error: that was open too
make: Leaving directory '{root}'
lib/util.c:1:5: error: from the start
""", {"in lib": "lib/util.c", "in deep": "lib/deep/x.c", "in the one around": "lib/util.c", "it was open": "lib/deep/x.c", "that was open too": "lib/util.c",
      "from the start": "lib/util.c"}),
    Case("a relative directory is below that of a lower level", """\
make[1]: Entering directory 'lib'
make[2]: Entering directory 'deep'
x.c:1:5: error: in both
make[2]: Leaving directory 'deep'
util.c:1:5: error: in the first
make[1]: Entering directory 'a'
same.c:1:5: error: of the same level
""", {"in both": "lib/deep/x.c", "in the first": "lib/util.c", "of the same level": "a/same.c"}),
    Case("ninja", """\
ninja: Entering directory `build'
[1/2] cc gen.c
gen.c:1:5: error: in build
../lib/util.c:1:5: error: up and down
ninja: build stopped: subcommand failed.
""", {"in build": "build/gen.c", "up and down": "lib/util.c"}),
    Case("a name that is in two directories", """\
make[1]: Entering directory '{root}/a'
same.c:1:5: error: first
main.c:1:5: error: before the start
make[2]: Entering directory '{root}/b'
same.c:1:5: error: the innermost
main.c:1:5: error: the one around
make[2]: Leaving directory '{root}/b'
same.c:1:5: error: one is left
make[1]: Leaving directory '{root}/a'
main.c:1:5: error: the start
same.c:1:5: error: the last that was open
""", {"first": "a/same.c", "before the start": "a/main.c", "the innermost": "b/same.c", "the one around": "a/main.c", "one is left": "a/same.c", "the start": "main.c",
      "the last that was open": "b/same.c"}),
    Case("the last equal one is left", """\
make[1]: Entering directory '{root}/a'
make[1]: Entering directory '{root}/b'
make[1]: Entering directory '{root}/a'
same.c:1:5: error: all three
make[1]: Leaving directory '{root}/a'
same.c:1:5: error: two are open
make[2]: Leaving directory '{root}/b'
same.c:1:5: error: another level leaves nothing
gmake[1]: Leaving directory '{root}/b'
same.c:1:5: error: another program leaves nothing
make[1]: Leaving directory '{root}/b'
same.c:1:5: error: one is open
""", {"all three": "a/same.c", "two are open": "b/same.c", "another level leaves nothing": "b/same.c", "another program leaves nothing": "b/same.c",
      "one is open": "a/same.c"}),
    Case("nothing is left that wasn't entered", """\
make[1]: Leaving directory '{root}/a'
same.c:1:5: error: not sought
""", {"not sought": "same.c"}),
    Case("a directory outside of the root", """\
make: Entering directory '{out}'
evil.c:1:5: error: outside
make: Entering directory '../out'
evil.c:1:5: error: outside again
make: Entering directory '{root}/leads'
evil.c:1:5: error: by a link
make: Entering directory '{root}/lib/../../out'
evil.c:1:5: error: up and out
""", {"outside": "evil.c", "outside again": "evil.c", "by a link": "evil.c", "up and out": "evil.c"}),
    Case("a name that leads out", """\
make: Entering directory '{root}/lib'
../../out/evil.c:1:5: error: from lib
../out/evil.c:1:5: error: from the root
{out}/evil.c:1:5: error: absolute
../a/same.c:1:5: error: this one stays inside
""", {"from lib": "../../out/evil.c", "from the root": "../out/evil.c", "absolute": "{out}/evil.c", "this one stays inside": "a/same.c"}),
    Case("outside, where that is allowed", """\
make: Entering directory '{out}'
evil.c:1:5: error: outside
""", {"outside": "{out}/evil.c"}, ("--allow-outside-root",)),
    Case("a link within the root", """\
make: Entering directory '{root}/inside'
util.c:1:5: error: by a link
""", {"by a link": "inside/util.c"}),
    Case("absolute names stay", """\
make: Entering directory '{root}/a'
{root}/b/same.c:1:5: error: absolute
""", {"absolute": "{root}/b/same.c"}),
    Case("a name without a file stays", """\
make: Entering directory '{root}/a'
none.c:1:5: error: nowhere
lib:1:5: error: a folder is no file
""", {"nowhere": "none.c", "a folder is no file": "lib"}),
    Case("lines that enter nothing", """\
make lib: Entering directory '{root}/a'
make[x]: Entering directory '{root}/a'
make[1: Entering directory '{root}/a'
: Entering directory '{root}/a'
make: entering directory '{root}/a'
make: Entering directory {root}/a
make: Entering directory ''
make: Entering directory '{root}/a' now
 make: Entering directory '{root}/a'
same.c:1:5: error: not sought
""", {"not sought": "same.c"}),
    Case("other quotes, CR and colors", """\
make[1]: Entering directory `{root}/a'\r
same.c:1:5: error: a grave accent\r
\x1b[1mmake[2]: Entering directory "{root}/b"\x1b[0m
same.c:1:5: error: double quotes
make[3]: Entering directory '{root}/with blank'
sp.c:1:5: error: a blank
""", {"a grave accent": "a/same.c", "double quotes": "b/same.c", "a blank": "with blank/sp.c"}),
    Case("the first of many are forgotten", "".join(f"make[{k}]: Entering directory '{{root}}/many/d{k}'\n" for k in range(70)) + """\
f0.c:1:5: error: the first
f5.c:1:5: error: the sixth
f6.c:1:5: error: the seventh
f69.c:1:5: error: the last
""", {"the first": "f0.c", "the sixth": "f5.c", "the seventh": "many/d6/f6.c", "the last": "many/d69/f69.c"}),
    Case("parts of a path that lead nowhere", """\
make: Entering directory '{root}//lib/./deep/'
./x.c:1:5: error: by dots
""", {"by dots": "lib/deep/x.c"}),
)

AGAIN = """\
make[1]: Entering directory '{root}/a'
same.c:1:5: error: twice
same.c:1:5: error: twice
make[1]: Leaving directory '{root}/a'
make[1]: Entering directory '{root}/b'
same.c:1:5: error: twice
make[1]: Leaving directory '{root}/b'
make[1]: Entering directory '{root}/a'
same.c:1:5: error: twice
"""


def text_of(name):
    return f"int text_of_{re.sub('[^a-z0-9]', '_', name)};\n"


class Tries:
    def __init__(self, program, room):
        self.program, self.room = os.path.abspath(program), room
        self.root, self.out = os.path.join(room, "project"), os.path.join(room, "out")
        self.passed = self.failed = 0
        for name in FILES:
            self.write(os.path.join(self.root, name), text_of(name))
        self.write(os.path.join(self.out, "evil.c"), SECRET)
        os.symlink(self.out, os.path.join(self.root, "leads"))
        os.symlink(os.path.join(self.root, "lib"), os.path.join(self.root, "inside"))

    def write(self, path, text):
        os.makedirs(os.path.dirname(path), exist_ok=True)
        with open(path, "w", encoding="utf-8", newline="") as file:
            file.write(text)

    def filled(self, text):
        return text.replace("{root}", self.root).replace("{out}", self.out)

    def check(self, what, given, expected):
        self.passed += given == expected
        self.failed += given != expected
        if given != expected:
            print(f"FAILED: {what}\n    given:    {given!r}\n    expected: {expected!r}")

    def run(self, form, words, lines, *, at_root=False):
        """What is written, with the root as an argument, or as the folder in which the program runs."""
        place = () if at_root else ("--root", self.root)
        ran = subprocess.run([self.program, "--from", "lines", "--to", form, "--ascii", "--width", "400", "--fail-on", "never", *place, *words],
                             input=lines.encode(), capture_output=True, cwd=self.root if at_root else self.room, timeout=60)
        if ran.returncode != 0:
            print(f"status {ran.returncode}: {ran.stderr.decode(errors='replace')[:300]}")
        return ran.stdout.decode("utf-8", "replace")

    def in_document(self, text):
        """The name of each message, and the text of the file of that name."""
        document = json.loads(text or '{"files": [], "reports": []}')
        return [(it["message"], document["files"][it["file"]]) for it in document["reports"]]

    def documented(self, what, found, names):
        self.check(f"{what}: names", [(message, file["name"]) for message, file in found], list(names.items()))
        for message, file in found:
            path = os.path.join(self.root, file["name"])
            if file["name"] in FILES:
                self.check(f"{what}: the text of {message}", file.get("source"), text_of(file["name"]))
            self.check(f"{what}: {message} is told where it is there", os.path.isfile(path) or file.get("source", "") == "", True)

    def drawn(self, text):
        """The name of each message in drawings: that of the frame, or what the note says of the place."""
        found = []
        for part in re.split(r"^  x ", text, flags=re.M)[1:]:
            message = part.split("\n", 1)[0]
            name = re.search(r",-\[(.*):\d+:\d+\]", part) or re.search(r"\bat (.*):\d+:\d+(?: \(not read: .*\))?$", part, flags=re.M)
            found.append((message, name and name[1]))
        return found

    def annotated(self, text):
        return [(it[2], it[1]) for it in re.finditer(r"^::error (?:.*,)?file=([^,]*),.*?::(.*)$", text, flags=re.M)]

    def try_case(self, case):
        lines, names = self.filled(case.lines), {message: self.filled(name) for message, name in case.names.items()}
        case_file, other = os.path.join(self.room, "case.log"), os.path.join(self.room, "other.log")
        self.write(case_file, lines)
        self.write(other, OTHER)
        drawing, github = self.run("drawing", case.words, lines), self.run("github", case.words, lines)
        document = self.run("document", case.words, lines)
        several = self.run("document", (*case.words, case_file, other), "")
        self.check(f"{case.what}, drawn", self.drawn(drawing), list(names.items()))
        self.check(f"{case.what}, annotations", self.annotated(github), list(names.items()))
        self.documented(f"{case.what}, a document", self.in_document(document), names)
        self.documented(f"{case.what}, two files", self.in_document(several), {**names, "of the other file": "b/same.c"})
        known = self.run("document", (*case.words, "--baseline", case_file), lines)
        self.check(f"{case.what}, with itself as a baseline", self.in_document(known), [])
        self.check(f"{case.what}, in the root", self.in_document(self.run("document", case.words, lines, at_root=True)), self.in_document(document))
        if not case.words:
            self.check(f"{case.what}: nothing of another project", [SECRET.strip() in it for it in (drawing, github, document, several)], [False] * 4)

    def try_again(self):
        """A finding that is printed again in another directory is another one."""
        lines = self.filled(AGAIN)
        said = self.run("github", (), lines)
        self.check("printed again", self.annotated(said), [("twice", "a/same.c"), ("twice", "b/same.c")])
        said = self.run("github", ("--no-unique",), lines)
        self.check("printed again, all of them", [name for _, name in self.annotated(said)], ["a/same.c", "a/same.c", "b/same.c", "a/same.c"])


def main():
    if len(sys.argv) != 2:
        sys.exit(__doc__.split("usage: ")[1].split("\n\n")[0])
    with tempfile.TemporaryDirectory() as room:
        tries = Tries(sys.argv[1], os.path.realpath(room))
        for case in CASES:
            tries.try_case(case)
        tries.try_again()
    print(f"{tries.passed} passed, {tries.failed} failed")
    sys.exit(1 if tries.failed else 0)


if __name__ == "__main__":
    main()
