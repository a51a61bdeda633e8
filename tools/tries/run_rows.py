"""Whole runs of the program `girzohal`, which `try_girzohal.py` makes. A row is a name, the form that is written, standard input, the exit
status, standard output and standard error; beside each run lie `FILES`."""

FILES = {"a.c": "int x\n"}

REFUSED = "girzohal: $: wanted JSON of a known form; the nearest form: eslint\n"
FIRST = "::error file=a.c,line=1,endLine=1,col=5,endColumn=6::no semicolon\n"
SECOND = "::warning file=b.c,line=1,col=5::gone\n"

ROWS = [
    ("nothing", "drawing", "", 0, "", ""),
    ("JSON of no known form", "drawing", "[{}]", 3, "", REFUSED),
    ("a log of another version", "drawing", '{"version": "2.0", "runs": []}', 3, "", "girzohal: version: wanted 2.1.0\n"),
    ("a kept line, drawn", "drawing", "make all\n", 0, "make all\n", ""),
    ("a kept line before an error", "github", "make all\na.c:1:5: error: no semicolon\n", 1, FIRST, "make all\n"),
    ("a warning without a source", "github", "b.c:1:5: warning: gone\n", 0, SECOND, ""),
    ("two findings among kept lines", "github",
     "make all\na.c:1:5: error: no semicolon\nb.c:1:5: warning: gone\nmake: stop\n", 1, FIRST + SECOND, "make all\nmake: stop\n"),
    ("a finding that is printed again", "github",
     "a.c:1:5: error: no semicolon\nmake all\na.c:1:5: error: no semicolon\n", 1, FIRST, "make all\n"),
]


def rows():
    """The name of each run, its arguments, its input, and how it ends."""
    for what, form, given, status, out, err in ROWS:
        yield what, ("--ascii", "--to", form), given.encode(), (status, out.encode(), err.encode())
