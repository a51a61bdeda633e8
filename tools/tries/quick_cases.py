#!/usr/bin/env python3
"""Tries the programs `girzohal` and `report` on cases with what they have to write, also before anything is proved.

usage: quick_cases.py                      (builds both at a time by `rt try --cases`, unproved, and runs them; `sh tools/quick.sh` calls this)
       quick_cases.py GIRZOHAL REPORT      (runs programs that are built: crates/girzohal/out/girzohal, crates/report/out/report)
       quick_cases.py --write FOLDER       (only writes the cases for `rt try --cases`: FOLDER/girzohal, FOLDER/report)

A case is standard input, the arguments, the exit status, and what is written, byte for byte. Expected are the drawings of examples/, the
files of tools/quick/ (of real tools and of logs those that tools/pages/gallery.py writes), README's drawing, the rows of report_rows.py and
run_rows.py, and the texts of the tables below.
`rt try` itself compares no exit status: it prints it, and this script compares it. Under `rt try` the error output is compared for errors
only, and for the other cases only with programs that are built. The last line is `N passed, M failed`, and says whether the build was
unproved; the status is 0 if M is 0."""
import glob
import json
import os
import re
import shutil
import subprocess
import sys
import tempfile
from typing import NamedTuple, Optional

sys.dont_write_bytecode = True  # nothing is left beside the sources
sys.path.append(os.path.join(os.path.dirname(os.path.dirname(os.path.abspath(__file__))), "pages"))
import gallery  # noqa: E402
import report_rows  # noqa: E402
import run_rows  # noqa: E402

TOP = os.path.dirname(os.path.dirname(os.path.dirname(os.path.abspath(__file__))))
PLAIN = ("--ascii",)
FORMS = ("drawing", "json", "document", "sarif", "problems", "github", "gitlab", "checkstyle", "junit", "stylish", "summary", "markdown")
LINE = "a.c:2:5: error: no such name [x]\n"
SHOWN = "   ,-[a.c:2:5]\n 1 | int x;\n 2 | int totl;\n   :     ^^^^\n   `----\n"
DRAWN = "\n  x x: no such name\n" + SHOWN
# what would drive a terminal, or turn the direction of writing, and what is shown for it
HOSTILE = "\x1b]0;title\x07\x1b[2J\x9b31m\r\u202e\u2066"
TAMED = "?]0;title??[2J\u00bf31m?\ufffd\ufffd"


class Case(NamedTuple):
    program: str
    name: str  # of letters, digits, _ and -
    words: tuple
    given: bytes
    status: int
    out: bytes
    err: Optional[bytes] = b""  # none: it isn't compared

    def is_refusal(self):
        return bool(self.err) and not self.out


def read(*path):
    with open(os.path.join(TOP, *path), "rb") as file:
        return file.read()


def reached(drawn):
    """The exit status of a run that draws: 1 where its last line counts errors."""
    return 1 if re.search(rb"^\d+ errors?\b.*\n\Z", drawn, re.M) else 0


# ---- girzohal

def of_gallery():
    """Each output of a real tool and each log of examples/ as it is drawn, and each log that is refused."""
    look = ("--color", "never")
    for name in sorted(os.listdir(os.path.join(TOP, "tools", "quick", "outputs"))):
        output, _, width = name.removesuffix(".txt").partition(".")
        words = (*look, "--root", "outputs", *gallery.tool_words(output), *(("--width", width) if width else ()))
        drawn = read("tools", "quick", "outputs", name)
        # (an output in the tool's own colors is drawn the same)
        for file in (f"{output}.txt", f"{output}-color.txt"):
            if os.path.isfile(os.path.join(TOP, "examples", "outputs", file)):
                yield Case("girzohal", f"output-{file[:-4]}{width}", words, read("examples", "outputs", file), reached(drawn), drawn)
    log_words = (*look, "--root", "logs", "--from", "sarif")
    for name in sorted(glob.glob("*.txt", root_dir=os.path.join(TOP, "tools", "quick", "logs"))):
        drawn, log = read("tools", "quick", "logs", name), name.replace(".txt", ".sarif")
        # (the text around a log goes to standard error)
        yield Case("girzohal", f"log-{name[:-4]}", (*log_words, "--max-findings", "4"), read("examples", "logs", log), reached(drawn), drawn, None)
    for row in read("tools", "quick", "logs", "refused.tsv").decode().splitlines():
        name, said = row.split("\t")
        yield Case("girzohal", f"log-{name}", log_words, read("examples", "logs", name + ".sarif"), 3, b"", (said + "\n").encode())


def of_forms():
    """Lines, a log and a document in each form; and what was written as a log or a document, read again."""
    for file, form in (("lines.txt", "lines"), ("log.sarif", "sarif"), ("document.json", "document")):
        what, given = file.partition(".")[0], read("tools", "quick", "given", file)
        # (the LF after a log or document is the rest of the input)
        aside = b"make all\nmake: *** [a.o] Error 1\n" if what == "lines" else b"\n"
        for to in FORMS:
            err = b"" if (what, to) == ("lines", "drawing") else aside
            yield Case("girzohal", f"{what}-to-{to}", (*PLAIN, "--to", to), given, 1, read("tools", "quick", f"{what}.{to}"), err)
        drawn, err = read("tools", "quick", f"{what}.drawing"), b"" if what == "lines" else aside
        yield Case("girzohal", f"{what}-by-its-name", (*PLAIN, "--from", form), given, 1, drawn, err)
        yield Case("girzohal", f"{what}-of-a-file", (*PLAIN, "--", "{}"), given, 1, drawn, err)
    again = read("tools", "quick", "lines.drawing").decode()
    drawn = again.removeprefix("make all\n").replace("make: *** [a.o] Error 1\n", "").encode()
    yield Case("girzohal", "a-document-that-was-written", PLAIN, read("tools", "quick", "lines.document"), 1, drawn)
    problems = b"a.c:2:5:2:9: error[girzohal(x)]: no such name\ngone.c:7:3:0:0: warning[girzohal(no-unused)]: never used\n"
    yield Case("girzohal", "a-log-that-was-written", (*PLAIN, "--to", "problems"), read("tools", "quick", "lines.sarif"), 1, problems)
    yield Case("girzohal", "problems-that-were-written", (*PLAIN, "--tool", "problem-lines", "--to", "problems"),
               read("tools", "quick", "lines.problems"), 1, read("tools", "quick", "lines.problems"))


# of `girzohal`: a name, arguments, standard input, status, what is written
RUNS = [
    ("nothing", (), "", 0, ""),
    ("no-finding", (), "make all\nmake: done\n", 0, "make all\nmake: done\n"),
    ("a-line-without-its-end", (), "make", 0, "make\n"),
    ("one-finding", PLAIN, LINE, 1, DRAWN + "1 error\n"),
    ("a-value-after-=", ("--ascii", "--color=always"), LINE, 1, DRAWN + "1 error\n"),
    ("colors", ("--color", "always"), LINE, 1,
     "\n  \x1b[38;2;225;80;80;1m×\x1b[0m \x1b[38;2;225;80;80;1mx: no such name\x1b[0m\n"
     "   ╭─[\x1b[38;2;92;157;255;1ma.c\x1b[0m:2:5]\n \x1b[2m1\x1b[0m │ int x;\n \x1b[2m2\x1b[0m │ int totl;\n"
     "   · \x1b[38;2;246;87;248m    ────\x1b[0m\n   ╰────\n1 error\n"),
    ("a-byte-order-mark", PLAIN, "\ufeff" + LINE, 1, DRAWN + "1 error\n"),
    ("bytes-that-are-no-text", PLAIN, b"\xff\xfe\n" + LINE.encode(), 1, "\ufffd\ufffd\n" + DRAWN + "1 error\n"),
    ("findings-alone", (*PLAIN, "--only-findings"), "make all\n" + LINE, 1, DRAWN + "1 error\n"),
    ("no-count", (*PLAIN, "-q"), LINE, 1, DRAWN),
    ("at-most-one", (*PLAIN, "--max-findings", "1"), LINE + LINE.replace("x]", "y]") + LINE.replace("x]", "z]"), 1,
     DRAWN + "and 2 more\n3 errors\n"),
    # what is printed again, with the same notes, is drawn once; kept lines stay, and the status counts all
    ("printed-again", PLAIN, 3 * LINE, 1, DRAWN + "3 errors (2 printed again)\n"),
    ("printed-again-behind-a-kept-line", PLAIN, LINE + "make all\n" + LINE, 1, DRAWN + "make all\n2 errors (1 printed again)\n"),
    ("printed-again-past-the-most", (*PLAIN, "--max-findings", "1"), 2 * LINE + LINE.replace("x]", "y]"), 1,
     DRAWN + "and 1 more\n3 errors (1 printed again)\n"),
    ("never-1", (*PLAIN, "--fail-on", "never"), LINE, 0, DRAWN + "1 error\n"),
    ("1-from-warnings-on", (*PLAIN, "--fail-on", "warning"), "x.c:1: warning: gone\n", 1, "\n  ! gone\n  note: at x.c:1\n1 warning\n"),
    ("columns-from-0", (*PLAIN, "--first-column", "0"), LINE.replace(":5:", ":4:"), 1, DRAWN + "1 error\n"),
    ("a-shape", (*PLAIN, "--shape", "{name}={line}={message}"), "a.c=2=oops\n", 0,
     "\n  ! oops\n   ,-[a.c:2:1]\n 1 | int x;\n 2 | int totl;\n   : ^^^^^^^^^\n   `----\n1 warning\n"),
    ("anywhere", (*PLAIN, "--root", "logs", "--allow-outside-root"), "../" + LINE, 1, DRAWN.replace("a.c", "../a.c") + "1 error\n"),
    # names that lead out of the root are shown, and nothing of their files (a.c is next to the folder logs)
    ("a-name-that-leads-out", (*PLAIN, "--root", "logs"), "../" + LINE, 1,
     "\n  x x: no such name\n  note: at ../a.c:2:5 (not read: outside of the root)\n1 error\n"),
    ("a-name-that-leads-out-from-within", (*PLAIN, "--root", "logs"), "logs/../../" + LINE, 1,
     "\n  x x: no such name\n  note: at logs/../../a.c:2:5 (not read: outside of the root)\n1 error\n"),
    ("an-absolute-name", PLAIN, "/etc/passwd:1:1: error: here\n", 1,
     "\n  x here\n  note: at /etc/passwd:1:1 (not read: outside of the root)\n1 error\n"),
    # nothing of an input drives a terminal
    ("a-message-that-drives", PLAIN, f"a.c:2:5: error: here{HOSTILE}\n", 1, f"\n  x here{TAMED}\n" + SHOWN + "1 error\n"),
    ("a-message-that-drives-raw", (*PLAIN, "--raw"), f"a.c:2:5: error: here{HOSTILE}\n", 1, f"\n  x here{HOSTILE}\n" + SHOWN + "1 error\n"),
    ("a-name-that-drives", (*PLAIN, "--width", "300"), f"gone{HOSTILE}.c:2:5: error: here\n", 1,
     f"\n  x here\n  note: at gone{TAMED}.c:2:5\n1 error\n"),
    ("a-line-that-drives", (), f"make {HOSTILE} all\n", 0, f"make {TAMED} all\n"),
    ("a-line-that-drives-raw", ("--raw",), "make \x07\x1b7 all\n", 0, "make \x07\x1b7 all\n"),
    ("paint-without-colors", (), "\x1b[31mmake\x1b[0m all\n", 0, "make all\n"),
    ("paint-with-colors", ("--color", "always"), "\x1b[31mmake\x1b[0m all\n", 0, "\x1b[31mmake\x1b[0m all\x1b[0m\n"),
    # (a CR alone would write over its row: it ends one)
    ("a-source-that-drives", PLAIN, "hostile.c:2:5: error: here\n", 1,
     "\n  x here\n   ,-[hostile.c:2:5]\n 1 | int x;\n 2 | int ?]0;title??[2J\u00bf31m\n   :     ^\n 3 | \ufffd\ufffd;\n   `----\n1 error\n"),
]
# 240 rows of 88 bytes and 85 characters, and the same as one row: more than what is counted by vectors at a time
ROWS = 240 * "A line of the text, as long as lines are: größer als nötig, and no longer than that.\n"
ROW = ROWS.replace("\n", " ")


def counted(source, start, end):
    """A document of one label by bytes."""
    report = {"file": 0, "message": "m", "labels": [{"bytes": [start, end]}]}
    return json.dumps({"version": 2, "files": [{"name": "long", "source": source}], "reports": [report]})


def span_as_json(offset, length, line, column):
    span = f'{{"offset": {offset},"length": {length},"line": {line},"column": {column}}}'
    return f'{{"message": "m","severity": "error","filename": "long","labels": [{{"span": {span}}}]}}\n'


RUNS += [
    ("json-of-gcc", PLAIN, '[{"kind": "warning", "locations": [], "column-origin": 1, "children": [], "message": "format"}]\n', 0,
     "\n  ! format\n1 warning\n"),
    ("rows-are-counted", ("--to", "json"), counted(ROWS, 239 * 88 + 2, 239 * 88 + 6), 1, span_as_json(239 * 88 + 2, 4, 240, 3)),
    ("characters-are-counted", ("--to", "problems"), counted(ROW, 240 * 88 - 5, 240 * 88 - 1), 1,
     f"long:1:{240 * 85 - 4}:1:{240 * 85}: error: m\n"),
]
MORE = "girzohal: --help lists all options\n"
WRITTEN = "drawing, json, document, sarif, problems, github, gitlab, checkstyle, junit, stylish, summary, markdown or html"
# a name, arguments, and the error that is printed
WRONG_WORDS = [
    ("a-color", ("--color", "pink"), "--color: expected auto, always or never, not 'pink'"),
    ("a-color-that-drives", ("--color", "\x1b[31mred"), "--color: expected auto, always or never, not '?[31mred'"),
    ("no-value", ("--max-findings",), "--max-findings needs a value: a number from 0"),
    ("a-width", ("--width", "x"), "--width: expected auto or a number from 1, not 'x'"),
    ("tabs", ("--tabs", "17"), "--tabs: expected a number from 1 to 16, not '17'"),
    ("a-column", ("--first-column", "2"), "--first-column: expected 0 or 1, not '2'"),
    ("a-form-that-is-read", ("--from", "yaml"), "--from: expected auto, document, sarif, json or lines, not 'yaml'"),
    ("a-form-that-is-written", ("--to", "pdf"), f"--to: expected {WRITTEN}, not 'pdf'"),
    ("two-forms", ("--to", "json", "--to", "github"), "--to: 'github' is a second form; --output writes others"),
    ("an-output-of-no-form", ("-o", "pdf=a.pdf"), f"--output: expected {WRITTEN}, not 'pdf' in 'pdf=a.pdf'"),
    ("an-output-without-a-file", ("--output=json=",), "--output: the file is missing in 'json='"),
    ("an-output-without-a-form", ("-o", "a.json"), "--output: expected a form and a file such as github=notes.txt, not 'a.json'"),
    ("two-outputs-in-one-file", ("-o", "json=a", "-o", "sarif=b", "-o", "html=a"), "--output: two forms can't go to 'a'"),
    ("two-outputs-that-are-printed", ("--to", "json", "-o", "sarif=-"), "--output: two forms can't go to standard output"),
    ("a-mode-without-a-diff", ("--filter-mode", "file"), "--filter-mode needs --changed"),
    ("a-mode", ("--filter-mode", "none"), "--filter-mode: expected added, diff_context, file or nofilter, not 'none'"),
    ("folders-without-a-diff", ("--strip", "1"), "--strip needs --changed"),
    ("a-diff-that-is-the-input", ("--changed", "-"), "standard input is read once, as FILE or by one option"),
    ("a-baseline-that-is-the-input", ("a", "-", "--baseline=-"), "standard input is read once, as FILE or by one option"),
    ("an-input-twice", ("-", "a", "-"), "standard input is read once, as FILE or by one option"),
    ("no-pattern", ("--include", ""), "--include: expected a pattern of files such as 'src/**', not ''"),
    ("a-severity", ("--severity", "never"), "--severity: expected error, warning or advice, not 'never'"),
    ("a-tool", ("--tool", "nobody"), "--tool: expected a tool that --help lists, such as gcc or sarif, not 'nobody'"),
    ("a-level", ("--fail-on", "never!"), "--fail-on: expected error, warning, advice or never, not 'never!'"),
    ("an-option", ("--what", "--color", "pink"), "unknown option --what"),
    ("an-option-that-is-misspelt", ("--colour=never",), "unknown option --colour; did you mean --color?"),
    ("an-option-that-is-cut", ("--max-f", "1"), "unknown option --max-f; did you mean --max-findings?"),
    ("one-of-two-options-that-is-cut", ("--max", "1"), "unknown option --max"),
    ("a-value-too-many", ("--quiet=yes",), "--quiet takes no value, but has 'yes'"),
    ("a-log-in-bytes", ("--from", "sarif", "--columns", "bytes"), "--columns: a SARIF log counts characters or utf16"),
    ("a-root", ("--root", "nowhere"), "--root: nowhere isn't a folder"),
    ("a-part", ("--shape", "{nothing}"), "--shape: a name in braces is unknown in '{nothing}'"),
]
NO_FORM = "$: wanted JSON of a known form; its keys: a; the nearest form: eslint"
FILES = '"files": [{"name": "a", "source": "ab"}]'
# a name, arguments, standard input, status, and the error that is printed
REFUSED = [
    ("json-of-no-form", (), '[{"a": 1}]\n', 3, NO_FORM),
    ("another-version", (), '{"version": "2.0", "runs": []}\n', 3, "version: wanted 2.1.0"),
    ("a-log-that-is-cut", (), '{"version": "2.1.0", "runs"', 3, "line 1, column 1: input ends in the JSON that begins here"),
    ("a-fault", (), '{"version": "2.1.0", "runs": [{"tool": {"driver": {"name": "t"}}, '
     '"results": [{"level": "grave", "message": {"text": "m"}}]}]}', 3,
     "runs[0].results[0].level: wanted none, note, warning or error"),
    ("a-file-that-isnt-there", ("nowhere.log",), "", 4, "nowhere.log isn't there"),
    ("a-file-whose-name-drives", ("\x1b[31mred",), "", 4, "?[31mred isn't there"),
    ("a-place-that-isnt-there", (), '{%s, "reports": [{"file": 0, "message": "m", "labels": [{"start": [2, 1], "end": [2, 2]}]}]}' % FILES, 3,
     "report 0: label 0: no position"),
    ("an-unknown-file", (), '{%s, "reports": [{"file": 1, "message": "m"}]}' % FILES, 3, "report 0: unknown file"),
]


def girzohal_cases():
    yield from of_gallery()
    yield from of_forms()
    for name, words, given, status, out in RUNS:
        yield Case("girzohal", name, words, given if isinstance(given, bytes) else given.encode(), status, out.encode())
    for name, words, told in WRONG_WORDS:
        yield Case("girzohal", "wrong-word-" + name, words, b"", 2, b"", f"girzohal: {told}\n{MORE}".encode())
    for name, words, given, status, told in REFUSED:
        yield Case("girzohal", "refused-" + name, words, given.encode(), status, b"", f"girzohal: {told}\n".encode())
    for at, (_, words, given, (status, out, err)) in enumerate(run_rows.rows()):
        yield Case("girzohal", f"row-{at}", (*words, "--root", "rows"), given, status, out, err)
    version = read("VERSION").decode().strip()
    yield Case("girzohal", "version", ("--version",), b"", 0, f"girzohal {version}\n".encode())
    told = re.search(r'HELP: &str = "(.*?)";', read("crates", "girzohal", "src", "help.rt").decode(), re.S)[1]
    yield Case("girzohal", "help", ("--color", "pink", "--help"), b"", 0, (told + "\n").encode())


# ---- report

ONE = '{"files": [{"name": "a.js", "source": "foo\\nbar"}], "reports": [{"file": %s, "message": "%s", "labels": [{"start": [%s], "end": [2, 4]}]}]}'
# for `report`: a name, arguments, standard input, status, the output, and the error that is printed
REPORTS = [
    ("no-reports", (), '{"files": [], "reports": []}', 0, "", ""),
    ("json", ("--json",), ONE % (0, "Oops", "2, 1"), 0,
     '{"message": "Oops","severity": "error","filename": "a.js","labels": [{"span": {"offset": 4,"length": 3,"line": 2,"column": 1}}]}\n', ""),
    # (whoever draws what strangers wrote takes escapes out first)
    ("a-message-that-drives", (), ONE % (0, "\\u001b[31mred", "2, 1"), 0,
     "\n  x \x1b[31mred\n   ,-[a.js:2:1]\n 1 | foo\n 2 | bar\n   : ^^^\n   `----\n", ""),
    ("rows-are-counted", ("--json",), counted(ROWS, 239 * 88 + 2, 239 * 88 + 6), 0, span_as_json(239 * 88 + 2, 4, 240, 3), ""),
    ("no-document", (), '{"files": []}', 3, "", "report: input is no document\n"),
    ("no-json", (), "a.c:2:5: error: no such name\n", 3, "", "report: input is no document\n"),
    ("nothing", (), "", 3, "", "report: input is no document\n"),
    ("an-unknown-file", (), ONE % (1, "m", "2, 1"), 1, "", "report: report 0: unknown file\n"),
    ("a-row-that-isnt-there", (), ONE % (0, "m", "3, 1"), 1, "", "report: report 0: label 0: start is no position\n"),
    ("a-label-that-is-reversed", (), (ONE % (0, "m", "2, 4")).replace("[2, 4]}", "[2, 3]}"), 1, "", "report: report 0: label 0: end 6 before start 7\n"),
    ("a-theme", ("--theme", "pink"), "", 2, "", "report: bad arguments\n"),
    ("a-number-with-a-zero", ("--width", "080"), "", 2, "", "report: bad arguments\n"),
    ("a-value-behind-=", ("--width=80",), "", 2, "", "report: bad arguments\n"),
    ("tabs", ("--tabs", "17"), "", 2, "", "report: bad arguments\n"),
    ("too-many", ("--make", "5001"), "", 2, "", "report: bad arguments\n"),
]


def report_cases():
    for path in sorted(glob.glob(os.path.join(TOP, "examples", "*.txt"))):
        name = os.path.basename(path)[:-4]
        yield Case("report", "example-" + name, (), read("examples", name + ".json"), 0, read("examples", name + ".txt"))
    shown = re.search(r"```text\n(\n  × eslint\(no-undef\).*?\n)```", read("bindings", "README.md").decode(), re.S)[1]
    given = ('{"files": [{"name": "cart.js", "source": "let total = 1;\\nprint(totl);\\n"}], "reports": [{"file": 0, '
             '"message": "`totl` isn\'t defined.", "scope": "eslint", "number": "no-undef", "help": "Did you mean `total`?", '
             '"labels": [{"start": [2, 7], "end": [2, 11], "text": "not found"}]}]}')
    yield Case("report", "of-the-front-page", ("--theme", "unicode_nocolor"), given.encode(), 0, shown.encode())
    for name, words, text, status, out, err in REPORTS:
        yield Case("report", name, words, text.encode(), status, out.encode(), err.encode())
    for at, (_, status, words, given, out, err) in enumerate(report_rows.rows()):
        yield Case("report", f"row-{at}", tuple(words), given, status, out, err)


# ---- the runs

def data(folder):
    """What lies beside each run of `girzohal`: two sources, and those of outputs, of logs and of rows, below a folder each."""
    hostile = os.path.join(folder, "hostile.c")
    put(hostile, f"int x;\nint {HOSTILE};\n".encode())
    found = {"a.c": os.path.join(TOP, "tools", "quick", "src", "a.c"), "hostile.c": hostile}
    for sort in ("outputs", "logs"):
        for path in sorted(glob.glob(os.path.join(TOP, "examples", sort, "src", "*"))):
            found[f"{sort}/{os.path.basename(path)}"] = path
    for name, text in run_rows.FILES.items():
        found[f"rows/{name}"] = os.path.join(folder, "rows", name)
        put(found[f"rows/{name}"], text.encode())
    return found


def put(path, text):
    os.makedirs(os.path.dirname(path), exist_ok=True)
    with open(path, "wb") as file:
        file.write(text)


def write(folder, cases):
    """Writes the cases as `rt try --cases` wants them.

    It tells the error output only of a case that has no file of what is written: so a refusal has none."""
    for it in cases:
        path = os.path.join(folder, it.program, it.name)
        put(path, it.given)
        put(path + ".args", "".join(word + "\n" for word in it.words).encode())
        if not it.is_refusal():
            put(path + ".stdout", it.out)


def fault(it, what):
    """Says what a case did that it shouldn't, with what drives a terminal spelled out."""
    said = f"FAILED: {it.program} {' '.join(it.words)} ({it.name}): wanted status {it.status}; {what}"
    print("".join(char if char.isprintable() or char == "\n" else ascii(char)[1:-1] for char in said))
    return False


class Unproved:
    """The programs as `rt try --cases` builds and runs them, both at a time."""

    def __init__(self, folder, cases):
        write(folder, cases)
        words = [part for name, path in data(folder).items() for part in ("--data", f"{name}={path}")]
        ran = []
        for program in ("girzohal", "report"):
            told = [open(os.path.join(folder, f"{program}.{sort}"), "wb") for sort in ("out", "err")]
            command = ["rt", "try", *(words if program == "girzohal" else []), "--cases", os.path.join(folder, program)]
            where = os.path.join(TOP, "crates", program)
            ran.append(subprocess.Popen(command, cwd=where, stdin=subprocess.DEVNULL, stdout=told[0], stderr=told[1]))
        for it in ran:
            it.wait()
        self.told, self.wrote = {}, {}
        for program in ("girzohal", "report"):
            out, err = (self.text(folder, program, sort) for sort in ("out", "err"))
            for name, text in re.findall(r"^== (\S+)\n((?:(?!== ).*\n)*)", out, re.M):
                self.wrote[program, name] = text
            for before, line, name in re.findall(r"((?:^(?!case=).*\n)*)^(case=(\S+) .*)\n", err, re.M):
                self.told[program, name] = (before, line)
            if not any(it == program for it, _ in self.told):
                print(f"{program} wasn't built, and none of its cases was run:\n{err[-3000:]}")

    @staticmethod
    def text(folder, program, sort):
        with open(os.path.join(folder, f"{program}.{sort}"), "rb") as file:
            return file.read().decode(errors="replace")

    def passes(self, it):
        if not any(program == it.program for program, _ in self.told):
            return False
        before, line = self.told.get((it.program, it.name), ("", "it wasn't run"))
        holds = " run=ended " in line and f" status={it.status} " in line
        if it.is_refusal():
            holds = holds and before.encode() == it.err and self.wrote.get((it.program, it.name), "") == ""
        else:
            holds = holds and " output=expected " in line
        return holds or fault(it, f"rt try says:\n{before}{line}")


class Built:
    """Programs that are built already."""

    def __init__(self, folder, girzohal, report):
        self.room, self.programs = os.path.join(folder, "room"), {"girzohal": os.path.abspath(girzohal), "report": os.path.abspath(report)}
        for name, path in data(folder).items():
            put(os.path.join(self.room, name), open(path, "rb").read())

    def passes(self, it):
        put(os.path.join(self.room, "given"), it.given)
        words = ["given" if word == "{}" else word for word in it.words]
        said = subprocess.run([self.programs[it.program], *words], input=it.given, capture_output=True, cwd=self.room, env={}, timeout=120)
        holds = said.returncode == it.status and said.stdout == it.out and it.err in (None, said.stderr)
        return holds or fault(it, f"status {said.returncode}, and\n{said.stdout.decode(errors='replace')}{said.stderr.decode(errors='replace')}")


def main(words):
    cases = [*girzohal_cases(), *report_cases()]
    if len({(it.program, it.name) for it in cases}) != len(cases):
        sys.exit("quick_cases.py: two cases have one name")
    if words[:1] == ["--write"] and len(words) == 2:
        write(words[1], cases)
        return 0
    if len(words) not in (0, 2) or words[:1] and words[0].startswith("-") or not words and not shutil.which("rt"):
        sys.exit(__doc__)
    with tempfile.TemporaryDirectory(prefix="quick-") as folder:
        if words:
            ran = Built(folder, *words)
        else:
            print(f"building girzohal and report, unproved, for {len(cases)} cases", flush=True)
            ran = Unproved(folder, cases)
        passed = sum(ran.passes(it) for it in cases)
    print(f"{passed} passed, {len(cases) - passed} failed{'' if words else ' (unproved build; the gate proves it)'}")
    return 0 if passed == len(cases) else 1


if __name__ == "__main__":
    sys.exit(main(sys.argv[1:]))
