#!/usr/bin/env python3
"""Documents for the program `report`, and what it answers to each. `try_report.py` walks `ROWS`.

A row is a name, the exit status, the arguments, the input, standard output (`None` where the row doesn't say), and standard
error. What is wanted was worked out by hand, from docs/DOCUMENT.md and the table in crates/report/README.md."""

EMPTY = '{"files":[],"reports":[]}'
NO_DOCUMENT = (3, "", "report: input is no document\n")
READ = (0, None, "")
NO_START = "report 0: label 0: start is no position"
NO_END = "report 0: label 0: end is no position"
NO_FILE = "report 0: unknown file"


def refused(why):
    """How a run ends that refuses a report."""
    return 1, "", f"report: {why}\n"


def shown(text):
    """How a run ends that writes a text."""
    return 0, text, ""


def row(name, words, given, answer):
    status, out, err = answer
    return name, status, words.split(), given.encode(), None if out is None else out.encode(), err.encode()


# ---- inputs, and whether they are documents

INPUTS = [
    (EMPTY, shown("")),
    (' {"reports":[],\n\t"files":[]}\r\n', shown("")),
    ('{"files":[],"reports":[],"version":1}', shown("")),
    ('{"files":[],"reports":[],"version":2}', shown("")),
    ('{"files":[],"reports":[],"version":3}', NO_DOCUMENT),
    ('{"files":[],"reports":[],"version":0}', NO_DOCUMENT),
    ('{"files":[],"reports":[],"version":1.0}', NO_DOCUMENT),
    ('{"files":[],"reports":[],"version":"1"}', NO_DOCUMENT),
    ('{"files":[],"reports":[],"version":null}', NO_DOCUMENT),
    ('{"files":[],"reports":[]}x', NO_DOCUMENT),
    ('{"files":[],"reports":[]}{}', NO_DOCUMENT),
    ('{"files":[],"reports":[],"more":0}', NO_DOCUMENT),
    ('{"files":[]}', NO_DOCUMENT),
    ('{"reports":[]}', NO_DOCUMENT),
    ('{"files":{},"reports":[]}', NO_DOCUMENT),
    ('{"files":[', NO_DOCUMENT),
    ("[]", NO_DOCUMENT),
    ("", NO_DOCUMENT),
    ("\ufeff" + EMPTY, NO_DOCUMENT),
    ('{"files":[{"name":"","source":""}],"reports":[]}', shown("")),
    ('{"files":[{"name":""}],"reports":[]}', NO_DOCUMENT),
    ('{"files":[{"name":"","source":"","text":""}],"reports":[]}', NO_DOCUMENT),
    ('{"files":[{"name":"","source":null}],"reports":[]}', NO_DOCUMENT),
    # (a document, of a report on a file that isn't there)
    ('{"files":[],"reports":[{"file":4294967294,"message":""}]}', refused(NO_FILE)),
    ('{"files":[],"reports":[{"file":4294967295,"message":""}]}', NO_DOCUMENT),
    ('{"files":[],"reports":[{"file":-1,"message":""}]}', NO_DOCUMENT),
    ('{"files":[],"reports":[{"file":0}]}', NO_DOCUMENT),
    ('{"files":0,"files":[],"reports":[]}', shown("")),
    ('{"files":[],"files":0,"reports":[]}', NO_DOCUMENT),
]


# ---- members of a report, and labels of one, in the document of `one_report`

BARE = "\n  x m\n"

MEMBERS = [
    ("", shown(BARE)),
    (',"severity":"advice","scope":"s","number":"1","help":"","note":"","url":"","labels":[]', READ),
    (',"severity":"fatal"', NO_DOCUMENT),
    (',"severity":null', NO_DOCUMENT),
    (',"scope":""', NO_DOCUMENT),
    (',"number":""', NO_DOCUMENT),
    (',"help":null', NO_DOCUMENT),
    (',"labels":{}', NO_DOCUMENT),
    (',"label":[]', NO_DOCUMENT),
    # (a document, of a label whose end is no position)
    (',"labels":[{"start":[1,1],"end":[4294967295,1]}]', refused(NO_END)),
    (',"labels":[{"start":[1,1],"end":[4294967296,1]}]', NO_DOCUMENT),
    (',"labels":[{"start":[0,1],"end":[1,1]}]', NO_DOCUMENT),
    (',"labels":[{"start":[1,1.0],"end":[1,1]}]', NO_DOCUMENT),
    (',"labels":[{"start":[1,1,1],"end":[1,1]}]', NO_DOCUMENT),
    (',"labels":[{"start":[1],"end":[1,1]}]', NO_DOCUMENT),
    (',"labels":[{"start":[1,1]}]', NO_DOCUMENT),
    (',"labels":[{"start":[1,1],"end":[1,1],"primary":0}]', NO_DOCUMENT),
    (',"labels":[{"start":[1,1],"end":[1,1],"text":0}]', NO_DOCUMENT),
    (',"labels":[{"bytes":[4,7],"text":"here"}]', NO_DOCUMENT),
]

HERE = "\n  x m\n   ,-[a.js:2:1]\n 1 | foo\n 2 | bar\n   : ^|^\n   :  `-- here\n 3 | baz\n   `----\n"

LABELS = [
    ('"bytes":[4,7],"text":"here"', shown(HERE)),
    ('"start":[2,1],"end":[2,4]', READ),
    ('"bytes":[4,7],"start":[2,1],"end":[2,4]', NO_DOCUMENT),
    ('"bytes":[4,7],"start":[2,1]', NO_DOCUMENT),
    ('"text":"here"', NO_DOCUMENT),
    ('"bytes":[4]', NO_DOCUMENT),
    ('"bytes":[4,4294967296]', NO_DOCUMENT),
]


def one_report(members, report):
    """A document of these members, with one file and a report of these."""
    file = '{"name":"a.js","source":"foo\\nbar\\nbaz"}'
    return f'{{"files":[{file}],"reports":[{{"file":0,"message":"m"{report}}}]{members}}}'


# ---- why reports are refused

# A version, a source, a label in it, and the answer.
REFUSED = [
    (1, "ab", '"start":[1,3],"end":[1,1]', refused("report 0: label 0: end 0 before start 2")),
    (1, "ab", '"start":[1,99],"end":[1,99]', refused(NO_START)),
    (2, "é", '"bytes":[1,2]', refused(NO_START)),
    (2, "abcd", '"bytes":[3,2]', refused("report 0: label 0: end 2 before start 3")),
    (2, "\\uFEFFab", '"bytes":[0,1]', refused(NO_END)),
    (2, "\\uFEFFab", '"bytes":[0,3]', shown("\n  x m\n   ,-[a:1:1]\n 1 | \ufeffab\n   : ^\n   `----\n")),
]

TWO_FAULTS = ('{"files":[{"name":"a","source":"ab"}],"reports":[{"file":0,"message":"m","labels":[{"start":[1,99],'
              '"end":[1,99]}]},{"file":5,"message":"m"}]}')
FILE_AND_LABEL = '{"files":[{"name":"a","source":"ab"}],"reports":[{"file":7,"message":"m","labels":[{"start":[9,9],"end":[9,9]}]}]}'

# A source, the file of a report, its label, and why it is refused, though the next report names no file.
FIRST_REFUSED = [
    ("ab", 0, '"start":[1,99],"end":[1,99]', NO_START),
    ("ab", 0, '"start":[1,3],"end":[1,1]', "report 0: label 0: end 0 before start 2"),
    ("ab", 7, '"start":[9,9],"end":[9,9]', NO_FILE),
    ("é", 0, '"bytes":[1,2]', NO_START),
    ("abcd", 0, '"bytes":[3,2]', "report 0: label 0: end 2 before start 3"),
    ("\\uFEFFab", 0, '"bytes":[0,1]', NO_END),
]

# The first report has no fault, and of the second the end of the second label is no position.
SECOND = [(0, []), (0, ['"start":[1,3],"end":[1,1]', '"start":[1,1],"end":[3,1]'])]


def reports_on(version, source, reports):
    """A document with one file of this source, and reports, each with the number of its file and its labels."""
    told = [f'{{"file":{file},"message":"m","labels":[{",".join(f"{{{label}}}" for label in labels)}]}}' for file, labels in reports]
    return f'{{"version":{version},"files":[{{"name":"a","source":"{source}"}}],"reports":[{",".join(told)}]}}'


# ---- where labels are

# A source, a label, its offset and length, and the line and the column of its offset.
PLACED = [
    ("foo\\nbar\\nbaz", '"start":[2,1],"end":[2,4]', 4, 3, 2, 1),
    ("foo\\nbar\\nbaz", '"bytes":[4,7]', 4, 3, 2, 1),
    ("\\uFEFFab", '"start":[1,1],"end":[1,2]', 3, 1, 1, 4),
    ("\\uFEFFab", '"bytes":[0,3]', 0, 3, 1, 1),
    # (the LF of a CRLF has the column of its CR)
    ("ab\\r\\ncd", '"start":[1,4],"end":[1,4]', 3, 0, 1, 3),
]

# Two labels, of which the first isn't primary, so that the head of the snippet is the place of the second.
NOT_PRIMARY = [
    ('"start":[1,1],"end":[1,2]', '"bytes":[1,2],"primary":true'),
    ('"bytes":[0,1]', '"start":[1,2],"end":[1,3],"primary":true'),
]
HEAD_OF_SECOND = "\n  x m\n   ,-[a:1:2]\n 1 | ab\n   : ^^\n   `----\n"


def as_json(offset, length, line, column):
    """A report with one label, as `--json` writes it."""
    span = f'{{"offset": {offset},"length": {length},"line": {line},"column": {column}}}'
    return f'{{"message": "m","severity": "error","filename": "a","labels": [{{"span": {span}}}]}}\n'


# ---- all that a report of a document says; of two messages the last one counts

ALL_SAID = ('{"version":2,"files":[{"name":"a","source":"é"}],"reports":[{"file":0,"message":"x","message":"m","severity":"warning",'
            '"scope":"s","number":"1","help":"h","note":"n","url":"u","labels":[{"bytes":[0,2],"text":"t","primary":true}]}]}')
ALL_DRAWN = "\n  ! s(1): m\n   ,-[a:1:1]\n 1 | é\n   : |\n   : `-- t\n   `----\n  help: h\n  note: n\n"
ALL_AS_JSON = ('{"message": "m","code": "s(1)","severity": "warning","url": "u","help": "h","note": "n","filename": "a",'
               '"labels": [{"label": "t","span": {"offset": 0,"length": 2,"line": 1,"column": 1}}]}\n')
# (the second label is primary, so the head of the snippet is its place)
PRIMARY = one_report(',"version":2', ',"labels":[{"bytes":[0,1]},{"bytes":[2,3],"primary":true}]')
HEAD_AT_PRIMARY = "\n  x m\n   ,-[a.js:1:3]\n 1 | foo\n   : ^ ^\n 2 | bar\n   `----\n"


# ---- two reports on one file, the later row first

BOTH = reports_on(2, "ab\\ncd", [(0, ['"bytes":[3,4]']), (0, ['"bytes":[0,1]'])])
LATER = "\n  x m\n   ,-[a:2:1]\n 1 | ab\n 2 | cd\n   : ^\n   `----\n"
FORMER = "\n  x m\n   ,-[a:1:1]\n 1 | ab\n   : ^\n 2 | cd\n   `----\n"

ROWS = [
    *(row(f"an input: {given[:60]}", "", given, answer) for given, answer in INPUTS),
    *(row(f"a report of the form: {report}", "", one_report("", report), answer) for report, answer in MEMBERS),
    *(row(f"a label of version 2: {label}", "", one_report(',"version":2', f',"labels":[{{{label}}}]'), answer) for label, answer in LABELS),
    *(row(f"a label by its places: {label}", "", reports_on(version, source, [(0, [label])]), answer) for version, source, label, answer in REFUSED),
    row("the first fault is a label's", "", TWO_FAULTS, refused(NO_START)),
    row("a file before its labels", "", FILE_AND_LABEL, refused(NO_FILE)),
    *(row(f"the first report is refused: {label}", "", reports_on(2, source, [(file, [label]), (7, [])]), refused(why))
      for source, file, label, why in FIRST_REFUSED),
    row("the second report is refused", "", reports_on(2, "ab", SECOND), refused("report 1: label 1: end is no position")),
    *(row(f"where a label stands: {label}", "--json", reports_on(2, source, [(0, [label])]), shown(as_json(*place)))
      for source, label, *place in PLACED),
    *(row(f"no label is primary unless it says so: {first}", "", reports_on(2, "ab", [(0, [first, second])]), shown(HEAD_OF_SECOND))
      for first, second in NOT_PRIMARY),
    row("what a document says is drawn", "", ALL_SAID, shown(ALL_DRAWN)),
    row("what a document says, as JSON", "--json", ALL_SAID, shown(ALL_AS_JSON)),
    row("a primary label", "", PRIMARY, shown(HEAD_AT_PRIMARY)),
    row("no report on a file", "", reports_on(1, "", []), shown("")),
    row("two reports on a file, drawn", "", BOTH, shown(LATER + FORMER)),
    row("two reports on a file, as JSON", "--json", BOTH, shown(as_json(3, 1, 2, 1) + as_json(0, 1, 1, 1))),
]
