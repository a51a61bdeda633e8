"""Whole runs of `girzohal` on what tools found, as rows: what it is given, and what it writes. `try_girzohal.py` tries them.

What logs mean, and what CI systems are to read, was printed by models in another language; places were counted by hand."""
import fcntl
import json
import os
import re
import subprocess
import tempfile
import termios
import time

from finding_logs import LOGS, SOURCES

PLAIN = {"PATH": os.environ.get("PATH", ""), "LANG": "C.UTF-8"}
REGION = ("startLine", "startColumn", "endLine", "endColumn")


def log(*runs):
    """A SARIF log: for each run its tool, and severity, rule, message, file and location of each result."""
    made = []
    for tool, results in runs:
        said = []
        for level, rule, message, uri, region in results:
            place = {"artifactLocation": {"uri": uri}, "region": {key: at for key, at in zip(REGION, region) if at is not None}}
            result = {"level": level, "message": {"text": message}, "locations": [{"physicalLocation": place}]}
            said.append({**result, **({"ruleId": rule} if rule else {})})
        made.append({"tool": {"driver": {"name": tool}}, "results": said})
    return json.dumps({"version": "2.1.0", "runs": made}).encode()


def document(source, *reports):
    """A document of one file and its reports."""
    named = [{"file": 0, "message": "m", **report} for report in reports]
    return json.dumps({"version": 2, "files": [{"name": "a.c", "source": source}], "reports": named}).encode()


# ---- what CI systems read

# Four findings on two files that aren't there, two of them alike.
OOPS = ("error", None, "Oops", "./b.py", (7,))
FOUR = log(
    ("eslint", [("warning", "no-undef", "'x' isn't <defined> & \"used\".", "src/a.js", (3, 10, 3, 11))]),
    ("", [OOPS, ("note", "n", "two\nrows, 100%: é", "src/a.js", (12, 1, 14, 2)), OOPS]),
)

GITHUB = """\
::warning file=src/a.js,line=3,endLine=3,col=10,endColumn=11,title=eslint(no-undef)::'x' isn't <defined> & "used".
::error file=./b.py,line=7::Oops
::notice file=src/a.js,line=12,endLine=14,title=n::two%0Arows, 100%25: é
::error file=./b.py,line=7::Oops
"""

GITLAB = r"""[{"check_name":"eslint(no-undef)","description":"'x' isn't <defined> & \"used\".",""" \
    r""""fingerprint":"6086e60e6a63878ca973f42419dd0877a66f69d6a001855e9a3086c5d5af4d67",""" \
    r""""location":{"lines":{"begin":3,"end":3},"path":"src/a.js"},"severity":"major"},""" \
    r"""{"check_name":"girzohal","description":"Oops",""" \
    r""""fingerprint":"c44469d22a54c35d625be56c152a59114334bac303bece2657c943486e002f1f",""" \
    r""""location":{"lines":{"begin":7,"end":7},"path":"b.py"},"severity":"critical"},""" \
    r"""{"check_name":"n","description":"two\nrows, 100%: é",""" \
    r""""fingerprint":"cd96c15f46d3b331db32aba2ae7c40f2988433dea597f555bc67d724d6220db4",""" \
    r""""location":{"lines":{"begin":12,"end":14},"path":"src/a.js"},"severity":"info"},""" \
    r"""{"check_name":"girzohal","description":"Oops",""" \
    r""""fingerprint":"b606302860b1fead7e6f728255662e231d3568abdb8413d22be9e11da3d21131",""" \
    r""""location":{"lines":{"begin":7,"end":7},"path":"b.py"},"severity":"critical"}]"""

CHECKSTYLE = """\
<?xml version="1.0" encoding="UTF-8"?>
<checkstyle version="4.3">
<file name="src/a.js">
<error line="3" column="10" severity="warning" message="&apos;x&apos; isn&apos;t &lt;defined&gt; &amp; &quot;used&quot;." \
source="eslint(no-undef)"/>
<error line="12" column="1" severity="info" message="two&#10;rows, 100%: é" source="n"/>
</file>
<file name="./b.py">
<error line="7" column="0" severity="error" message="Oops"/>
<error line="7" column="0" severity="error" message="Oops"/>
</file>
</checkstyle>
"""

JUNIT = """\
<?xml version="1.0" encoding="UTF-8"?>
<testsuites>
<testsuite name="src/a.js" tests="2" failures="2" errors="0">
<testcase classname="src/a" file="src/a.js" name="eslint(no-undef) at 3:10"><failure type="warning" \
message="&apos;x&apos; isn&apos;t &lt;defined&gt; &amp; &quot;used&quot;.">\
&apos;x&apos; isn&apos;t &lt;defined&gt; &amp; &quot;used&quot;.</failure></testcase>
<testcase classname="src/a" file="src/a.js" name="n at 12:1"><failure type="info" message="two&#10;rows, 100%: é">\
two&#10;rows, 100%: é</failure></testcase>
</testsuite>
<testsuite name="./b.py" tests="2" failures="2" errors="0">
<testcase classname="./b" file="./b.py" name="finding at 7:0"><failure type="error" message="Oops">Oops</failure></testcase>
<testcase classname="./b" file="./b.py" name="finding at 7:0 (2)"><failure type="error" message="Oops">Oops</failure></testcase>
</testsuite>
</testsuites>
"""

PASSING = """\
<?xml version="1.0" encoding="UTF-8"?>
<testsuites>
<testsuite name="girzohal" tests="1" failures="0" errors="0">
<testcase classname="girzohal" name="no findings"/>
</testsuite>
</testsuites>
"""

STYLISH = """\
src/a.js
   3:10  warning  'x' isn't <defined> & "used"  eslint(no-undef)
  12:1   advice   two
rows, 100%: é              n

./b.py
  7:0  error  Oops
  7:0  error  Oops

✖ 4 problems (2 errors, 2 warnings)
"""

# é has two bytes: it is the third character of row 1, and b the third of row 2.
ROWS = "a é\r\n  b\n"
ODD = {"message": "odd", "severity": "warning", "scope": "c", "number": "n"}
LOST = log(("", [("error", None, "lost", "b.c", (3, 7, None, 9))]))
XML = document("", {"message": "a<b>&\"'\t\n\r\x01\ufffe\uffff\U0010ffff\x85]]>"})
XML_SHOWN = ' message="a&lt;b&gt;&amp;&quot;&apos;&#9;&#10;&#13;\ufffd\ufffd\ufffd\U0010ffff\x85]]&gt;"'

# ---- reports in each form

# A file that isn't there, and one that is: the first report has the place that its tool gave, the
# second that of its label.
TWO = b"lost.c:7:3-9: error: lost\na.c:1:5: warning: odd\n"

FIRST_DRAWN = """
  x lost
  note: at lost.c:7:3
"""
BOTH_DRAWN = FIRST_DRAWN + """
  ! odd
   ,-[a.c:1:5]
 1 | int x;
   :     ^
   `----
"""

JSON = """\
{"message": "lost","severity": "error","note": "at lost.c:7:3","filename": "lost.c","labels": []}
{"message": "odd","severity": "warning","filename": "a.c","labels": [{"span": {"offset": 4,"length": 1,"line": 1,"column": 5}}]}
"""

# An error has no severity there, since that is what a document means by none.
DOCUMENT = r'{"files":[{"name":"lost.c","source":""},{"name":"a.c","source":"int x;\n"}],' \
    r'"reports":[{"file":0,"message":"lost","note":"at lost.c:7:3"},' \
    r'{"file":1,"labels":[{"bytes":[4,5]}],"message":"odd","severity":"warning"}],"version":2}'
# (the label of a line is a primary one)
DOCUMENT_OF_LINES = DOCUMENT.replace("[4,5]", '[4,5],"primary":true')

LOG = r'{"$schema":"https://json.schemastore.org/sarif-2.1.0.json",' \
    r'"runs":[{"artifacts":[{"location":{"uri":"lost.c"}},{"contents":{"text":"int x;\n"},"location":{"uri":"a.c"}}],' \
    r'"columnKind":"unicodeCodePoints","newlineSequences":["\r\n","\n","\r"],' \
    r'"results":[{"level":"error","locations":[{"physicalLocation":{"artifactLocation":{"index":0,"uri":"lost.c"},' \
    r'"region":{"endColumn":9,"startColumn":3,"startLine":7}}}],"message":{"text":"lost"}},' \
    r'{"level":"warning","locations":[{"physicalLocation":{"artifactLocation":{"index":1,"uri":"a.c"},' \
    r'"region":{"endColumn":6,"endLine":1,"startColumn":5,"startLine":1}}}],"message":{"text":"odd"}}],' \
    r'"tool":{"driver":{"name":"girzohal","rules":[]}}}],"version":"2.1.0"}'


def counted(errors, warnings, notes):
    """A document with this many reports."""
    return document("", *[{}] * errors, *[{"severity": "warning"}] * warnings, *[{"severity": "advice"}] * notes)


def labelled(start, end):
    """A document of a report with this label."""
    return document("xy", {"labels": [{"start": start, "end": end}]})


# A report on a folder, with controls in its texts.
HOSTILE = log(("", [("warning", None, "\x1b[2J", "a\n.c", (3,))]))
HOSTILE_FOUND = '{"files":[{"name":"%s","source":""}],"reports":[{"file":0,"message":"%s","note":"%s","severity":"warning"}]}'

# The files that there are: a name, and a text, or none of a folder.
FILES = {"a.c": "int x;\n", "a\n.c": None}

# What is tried, the arguments, the input, the status, and all of the output; the error output stays empty.
RUNS = [
    *[(f"a label at {label}", ("--to", "problems"), document(ROWS, {**ODD, "labels": [{"bytes": label}]}), 0,
       f"a.c:{place}: warning[c(n)]: odd\n")
      for label, place in (((2, 4), "1:3:1:4"), ((8, 9), "2:3:2:4"), ((0, 9), "1:1:2:4"))],
    ("a finding without a source", ("--to", "problems"), LOST, 1, "b.c:3:7:0:9: error: lost\n"),
    ("a finding whose last row isn't known", ("--to", "github"), LOST, 1, "::error file=b.c,line=3,col=7,endColumn=9::lost\n"),
    *[("four findings", ("--to", form), FOUR, 1, text)
      for form, text in (("github", GITHUB), ("gitlab", GITLAB), ("checkstyle", CHECKSTYLE), ("junit", JUNIT), ("stylish", STYLISH))],
    *[("no findings", ("--to", form), b"", 0, text) for form, text in (("github", ""), ("gitlab", "[]"), ("junit", PASSING), ("stylish", ""))],
    *[("how many there are", ("--max-findings", "0"), counted(*counts), int(counts[0] > 0), (f"and {sum(counts)} more\n" if text else "") + text)
      for counts, text in (((0, 0, 0), ""), ((1, 0, 0), "1 error\n"), ((3, 1, 0), "3 errors, 1 warning\n"), ((0, 2, 1), "2 warnings, 1 note\n"),
                           ((0, 0, 12), "12 notes\n"))],
    *[("how many more there are", ("--max-findings", "0", "--no-summary"), counted(0, count, 0), 0, text) for count, text in ((0, ""), (2, "and 2 more\n"))],
    *[("a warning", ("--max-findings", "0", "--fail-on", level), counted(0, 1, 0), status, "and 1 more\n1 warning\n")
      for level, status in (("error", 0), ("warning", 1), ("advice", 1), ("never", 0))],
    *[("two reports", ("--ascii", *words), TWO, 1, text)
      for words, text in (((), BOTH_DRAWN + "1 error, 1 warning\n"), (("--no-summary",), BOTH_DRAWN),
                          (("--max-findings", "1"), FIRST_DRAWN + "and 1 more\n1 error, 1 warning\n"), (("--max-findings", "0", "--no-summary"), "and 2 more\n"))],
    *[("two reports", ("--to", form), TWO, 1, text) for form, text in (("json", JSON), ("document", DOCUMENT_OF_LINES), ("sarif", LOG))],
    ("a document", ("--to", "document"), DOCUMENT.encode(), 1, DOCUMENT),
    ("a label that stands in its source", ("--to", "problems"), labelled([1, 1], [1, 2]), 1, "a.c:1:1:1:2: error: m\n"),
    *[("texts", ("--allow-outside-root", "--to", "document", *words), HOSTILE, 0, HOSTILE_FOUND % (name, message, f"at {name}:3 (not read: no plain file)"))
      for words, name, message in (((), "a?.c", "?[2J"), (("--raw",), r"a\n.c", r"\u001b[2J"))],
]

# The same, where the output has this among others.
PARTS = [
    *[("the check of a finding without a code", ("--from", "sarif", "--to", "gitlab", *words), FOUR, 1, text)
      for words, text in (((), '"girzohal","description":"Oops"'), (("--tool", "mypy"), '"mypy","description":"Oops"'),
                          (("--tool", "mypy"), r'"n","description":"two\nrows'))],
    # printf '4:a.js1:n4:Oops0' | sha256sum
    ("a fingerprint", ("--to", "gitlab"), log(("", [("error", "n", "Oops", "a.js", (1,))])), 1,
     '"fingerprint":"0bb9a8934443072a9468e2f1f6fff39f59de12f04191d44d4228984370a725c9"'),
    ("characters that XML lacks", ("--raw", "--to", "checkstyle"), XML, 1, XML_SHOWN),
    ("a log's tool", ("--to", "sarif", "--tool", "mypy"), b"", 0, '{"name":"mypy","rules":[]}'),
    ("a log's tool", ("--to", "sarif", "--tool", "sarif"), log(), 0, '{"name":"girzohal","rules":[]}'),
]

# The same, where an input is refused: its report, and what is said.
REFUSED = [
    ("a label past its source", labelled([1, 9], [1, 9])),
    ("a label that ends before it starts", labelled([1, 2], [1, 1])),
]

# ---- documents that are written as logs, and read again

# Rows past ASCII and two rules, the primary label after another.
ENDS = r"""{"files":[{"name":"b.c","source":""},{"name":"a.c","source":"int a;\n/* 日😀x */ b\r\nlast"}],"reports":[
{"file":1,"message":"first","scope":"other","number":"E1","url":"https://e/1","help":"h","note":"n",
"labels":[{"start":[1,5],"end":[1,6],"text":"here"},{"start":[2,4],"end":[3,2],"primary":true}]},
{"file":0,"message":"{0}","severity":"advice","number":"W/x","labels":[]}]}"""

# Ends before a byte order mark and inside a CRLF, and labels that tell nothing new.
SETTLED = '{"version":2,"files":[{"name":"m.c","source":"\ufeff' + r"""ab\r\ncd"}],"reports":[{"file":0,"message":"m","severity":"warning",
"labels":[{"bytes":[0,6]},{"bytes":[3,3]},{"bytes":[5,6],"text":"b"},{"bytes":[6,6]},{"bytes":[7,7]}]}]}"""

# A document, and what its log means: for each report its file, its severity, its scope, which is
# the tool that the log names, its number, its message, its link, and its labels.
BACK = [
    (ENDS, """
a.c error girzohal E1 first <https://e/1> [10..26* 4..5 here]
b.c advice girzohal W/x {0} <> []
"""),
    (SETTLED, """
m.c warning girzohal - m <> [3..5* 5..5 b 7..7]
"""),
]

# ---- lines that come in parts

# The two parts of a text, what is drawn of each, and what is drawn at the end.
COME = [
    ("", "", "", "", ""),
    ("make", " all\n", "", "", "make all\n"),
    ("one\ntwo\nthree\n", "four\n", "one\ntwo\n", "three\n", "four\n"),
    ("a.c:1:2: warning: m\n", "b\nc\n", "", "\n  ! m\n  note: at a.c:1:2\nb\n", "c\n1 warning\n"),
    ("a.c:1:2: warning: m\n", "\n", "", "\n  ! m\n  note: at a.c:1:2\n", "\n1 warning\n"),
    ("a.c:1:2: warning: m\n", "b.c:3:4: warning: n\n", "", "\n  ! m\n  note: at a.c:1:2\n", "\n  ! n\n  note: at b.c:3:4\n2 warnings\n"),
    ("a.c:1:2: warning: m\n", "a.c:3:4: note: n\n", "", "",
     "\n  ! m\n  note: at a.c:1:2\n\n  > n\n  note: at a.c:3:4\n1 warning, 1 note\n"),
    ("a.c:1:2: warning: m\n", "make: end", "", "", "\n  ! m\n  note: at a.c:1:2\nmake: end\n1 warning\n"),
    ("\x1b[1mone\x1b[0m\r\n", "\n", "", "one\n", "\n"),
]

# The same for annotations: for each part, and at the end, the output and the error output.
ANNOTATED = [
    ("", "", ("", ""), ("", ""), ("", "")),
    ("make\n\x1b[1mone\x1b[0m\r\n", "two\n", ("", "make\n"), ("", "one\n"), ("", "two\n")),
    ("make\na.c:1:2: warning: m\n", "\x1b[1mb\x1b[0m\nc\n", ("", "make\n"), ("::warning file=a.c,line=1,col=2::m\n", "b\n"), ("", "c\n")),
    ("a.c:1:2: warning: m\n", "b.c:3:4: error: n", ("", ""), ("", ""),
     ("::warning file=a.c,line=1,col=2::m\n::error file=b.c,line=3,col=4::n\n", "")),
]

# Words, a line, and how it is shown.
PAINTED = [
    (("--color", "always"), "one\r\n", "one\n"),
    (("--color", "always"), "\x1b[1;31mone\x1b[0m two\r\n", "\x1b[1;31mone\x1b[0m two\x1b[0m\n"),
    (("--color", "always"), "\x1b[32mone", "\x1b[32mone\x1b[0m\n"),
    (("--color", "always"), "\x1b[2Jone\n", "?[2Jone\n"),
    (("--color", "always"), "\x1b]8;;u\x07\x1b[1mone\x1b]8;;\x07\n", "one\n"),
    (("--color", "always", "--raw"), "\x1b]8;;u\x07\x1b[1mone\x1b]8;;\x07\r\n", "\x1b]8;;u\x07\x1b[1mone\x1b]8;;\x07\n"),
    (("--color", "always", "--raw"), "\x1b[1mone\x1b[2J\n", "\x1b[1mone\x1b[2J\n"),
    (("--color", "never"), "\x1b[1mone\x1b[0m\r\n", "one\n"),
    (("--color", "never", "--raw"), "\x1b[1mone\x1b[2J\n", "one\x1b[2J\n"),
    (("--ascii",), "\x1b[1mone\n", "one\n"),
    (("--color", "auto"), "\x1b[1mone\n", "one\n"),
]

# A text with findings, notes, colors, a link and a character of two bytes.
CUT = "\x1b[1mone\x1b[0m\r\ncafé\na.c:1:2: warning: m\n  x\na.c:3:4: note: n\n\x1b]8;;u\x07two\x1b]8;;\x07\n\nb.c:1:1: error: e\r\nend\n\x1b[0m".encode()


class FindingRows:
    """The tries of these rows. `check`, `run` and `program` are those of `Tries`."""

    def try_findings(self):
        with room_of(FILES) as room:
            for what, words, given, status, text in RUNS:
                self.answers(what, room, words, given, lambda said: (said.returncode, said.stdout, said.stderr) == (status, text.encode(), b""))
            for what, words, given, status, text in PARTS:
                self.answers(what, room, words, given, lambda said: said.returncode == status and text.encode() in said.stdout and said.stderr == b"")
            for what, given in REFUSED:
                self.answers(what, room, ("--to", "json"), given, lambda said: (said.returncode, said.stdout) == (3, b"")
                             and re.fullmatch(rb"girzohal: report 0: label 0: .*\n", said.stderr))
            for look, line, shown in PAINTED:
                self.answers(f"a kept line, {line!r}", room, look, line.encode(),
                             lambda said: (said.stdout, said.stderr) == (shown.encode(), b""))

    def answers(self, what, room, words, given, holds):
        said = self.run(*words, given=given, cwd=room)
        self.check(f"{what}: {' '.join(words)}", holds(said), said)

    # ---- logs

    def try_finding_logs(self):
        """Logs mean what the model says, and those that are written mean what the documents said."""
        with room_of(SOURCES) as room:
            for what, text, means in LOGS:
                here, wanted = (it.replace("file:///", f"file://{room}/") for it in (text, means))
                said = self.run("--from", "sarif", "--to", "document", "--raw", given=here.encode(), cwd=room)
                found = self.meaning(said, meant_report)
                self.check(f"a log, {what}: it means {found}, not {wanted}", found == wanted, said)
            for text, wanted in BACK:
                written = self.run("--to", "sarif", given=text.encode(), cwd=room)
                said = self.run("--from", "sarif", "--to", "document", "--raw", given=written.stdout, cwd=room)
                found = self.meaning(said, report_back)
                self.check(f"a log of a document: it means {found}, not {wanted}", found == wanted, said)

    def meaning(self, said, line):
        """What was read means, a line for each report; or why it wasn't read, after the LF that is before a log."""
        fault = re.fullmatch(r"\ngirzohal: (.*): wanted (.*)\n", said.stderr.decode())
        if fault and said.returncode == 3 and said.stdout == b"":
            return f"\nFAULT {fault[1]}: wanted {fault[2]}\n"
        made = json.loads(said.stdout)
        return "\n" + "".join(line(made["files"][it["file"]]["name"], it) for it in made["reports"])

    # ---- lines

    def try_finding_lines(self):
        """Of lines that come in parts as much is written as is known; wherever they are cut, all of it is the same."""
        for first, second, *wanted in COME:
            self.try_parts(("--ascii",), first, second, [(text, "") for text in wanted])
        for first, second, *wanted in ANNOTATED:
            self.try_parts(("--to", "github", "--color", "always"), first, second, wanted)
        for words in (("--ascii",), ("--color", "always"), ("--to", "github", "--ascii")):
            with room_of({}) as room:
                whole = self.run(*words, given=CUT, cwd=room)
                others = [at for at in range(len(CUT) + 1) if self.joined(words, room, at) != (whole.stdout, whole.stderr)]
            self.check(f"lines that are cut anywhere: {words}: not the same at {others}", not others and whole.stdout, whole)

    def try_parts(self, words, first, second, wanted):
        with room_of({}) as room:
            said = self.fed(words, room, first.encode(), second.encode())
        self.check(f"lines in parts: {words}: {first!r} and {second!r}: {said}", said == [tuple(text.encode() for text in both) for both in wanted])

    def joined(self, words, room, at):
        said = self.fed(words, room, CUT[:at], CUT[at:])
        return b"".join(both[0] for both in said), b"".join(both[1] for both in said)

    def fed(self, words, room, *parts):
        """What is written of each part before the next one comes, and at the end: the output, and the error output."""
        ran = subprocess.Popen([self.program, *words], stdin=subprocess.PIPE, stdout=subprocess.PIPE, stderr=subprocess.PIPE, cwd=room, env=PLAIN,
                               bufsize=0)
        said = []
        for part in parts:
            ran.stdin.write(part)
            if part:
                wait_for(ran)
            said.append((written(ran.stdout), written(ran.stderr)))
        return said + [ran.communicate(timeout=60)]


def room_of(files):
    """A folder of these files."""
    room = tempfile.TemporaryDirectory(dir=os.path.realpath(tempfile.gettempdir()))
    for name, text in files.items():
        path = os.path.join(room.name, name)
        os.makedirs(os.path.dirname(path) if text is not None else path, exist_ok=True)
        if text is not None:
            with open(path, "wb") as file:
                file.write(text.encode())
    return room


def labels(report, text):
    """The labels of a report, the text of each in this way."""
    said = []
    for label in report.get("labels", []):
        star = "*" if label.get("primary") else ""
        said.append("{}..{}".format(*label["bytes"]) + star + (text.format(label["text"]) if "text" in label else ""))
    return " ".join(said)


def meant_report(name, it):
    """A report of a log, as the model has it."""
    code = f"{it.get('scope', '-')}({it.get('number', '-')})"
    line = f"{it.get('severity', 'error')} {code} \"{it['message']}\" {name or '-'} [" + labels(it, ' "{}"') + "]"
    return line + (f" <{it['url']}>" if "url" in it else "") + (f" note: {it['note']}" if "note" in it else "") + "\n"


def report_back(name, it):
    """A report of a log that was written of a document."""
    code = f"{it.get('scope', '-')} {it.get('number', '-')}"
    return f"{name} {it.get('severity', 'error')} {code} {it['message']} <{it.get('url', '')}> [{labels(it, ' {}')}]\n"


def wait_for(ran):
    """Waits until a program has taken all that it was given, and waits for more."""
    for _ in range(60_000):
        left = int.from_bytes(fcntl.ioctl(ran.stdin, termios.FIONREAD, bytes(4)), "little")
        with open(f"/proc/{ran.pid}/stat", encoding="utf-8") as file:
            state = file.read().rpartition(")")[2].split()[0]
        if left == 0 and state in "SZ":
            return
        time.sleep(0.001)


def written(stream):
    """The text in a pipe."""
    os.set_blocking(stream.fileno(), False)
    text = stream.read() or b""
    os.set_blocking(stream.fileno(), True)
    return text
