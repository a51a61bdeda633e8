#!/usr/bin/env python3
"""Compares what `girzohal` reads of tools' JSON and XML with `value_reader.py`, a second reader: samples of each form of the table, with
and without sources; rows worked out by hand; inputs that are refused; and mutants of samples.

usage: try_values.py PROGRAM [--open DIR] [--mutants N] [--seed S]      (crates/girzohal/out/girzohal after `rt run` there)

There are N mutants of each kind, 60 by default: members in another order, wrong values, inputs that are cut, two inputs, and lines
beside; of XML attributes in another order, wrong attributes, other pieces of text, inputs that are cut, and two inputs.
`--open DIR` also tries each sample NAME of a folder, with what has to be read of it in NAME.expected, and makes mutants of these
samples too. PROGRAM `-` tries the second reader alone. The last line is `N passed, M failed`; the status is 0 if M is 0."""
import json
import os
import random
import re
import subprocess
import sys
import tempfile
import time

sys.dont_write_bytecode = True
import value_reader as reader
import value_rows
from value_samples import NAMES, Sampler, text_of

ROWS = ["int é = 1;", "\tint 𝕏y = total(é);", "", "  return 𝕏 + é;\t// end", "a\tb\tc", "日本 x"]
FIGURES = ("line", "column", "end_line", "end_column")


def problem(it):
    """The line of a finding without a source."""
    escaped = lambda text, more: re.sub("[\\\\\n\r" + re.escape(more) + "]", lambda char: "\\" + {"\n": "n", "\r": "r", ":": "c", "]": "b", "\\": "\\"}[char[0]], text)
    place = it["place"]
    code = f"[{escaped(code_of(it), ']')}]" if it["code"] else ""
    figures = ":".join(str(min(place[name] or 0, 2 ** 32 - 1)) for name in FIGURES)
    return f"{escaped(place['file'] or '', ':')}:{figures}: {it['severity']}{code}: {escaped(it['message'], '')}"


def code_of(it):
    return f"{it['scope']}({it['code']})" if it["scope"] else it["code"]


def texts_of(it, key):
    """What a finding says, and then what each side of a kind says."""
    own, sides = {"help": ("help", "edits"), "note": ("note", "notes")}[key]
    return ([it[own]] if it[own] else []) + [side["text"] for side in it["sides"] if side["key"] == sides and side["text"]]


def place_line(place):
    return "at " + ":".join([place["file"] or "", *(str(min(place[name], 2 ** 32 - 1)) for name in ("line", "column") if place["line"] and place[name])])


class Tries:
    def __init__(self, program, mutants, seed, room):
        self.program, self.mutants, self.seed = None if program == "-" else os.path.abspath(program), mutants, seed
        self.room, self.empty, self.full = room, os.path.join(room, "empty"), os.path.join(room, "full")
        self.forms, (self.xml_forms, self.reads_xml) = reader.known_forms(), reader.xml_forms()
        self.given, self.given_xml = [], list(value_rows.XML)
        self.sources = {name: "\n".join(ROWS * 2) for name in NAMES}
        self.passed = self.failed = 0
        os.makedirs(self.empty)
        for name, text in self.sources.items():
            path = os.path.join(self.full, name)
            os.makedirs(os.path.dirname(path), exist_ok=True)
            with open(path, "w", encoding="utf-8", newline="") as file:
                file.write(text)

    def check(self, is_right, name, *told):
        self.passed += is_right
        self.failed += not is_right
        if not is_right and self.failed <= 20:
            print("FAILED", name, *(str(it)[:600] for it in told), sep="\n  ")

    def run(self, given, *words, root=None):
        ran = subprocess.run([self.program, "--color", "never", "--root", root or self.empty, *words], input=given.encode("utf-8", "surrogatepass"),
                             capture_output=True, cwd=self.room, timeout=60)
        return ran.returncode, ran.stdout.decode("utf-8", "replace"), ran.stderr.decode("utf-8", "replace")

    def read(self, text, own="", tool=None):
        if reader.is_xml(text):
            return reader.read_xml(text, self.xml_forms)
        return reader.read_json(text, self.forms, reader.forms_of(own), tool)

    def lacks(self, text):
        """Whether the program reads no such input: XML, for as long as the table has no forms of it."""
        return self.program is not None and reader.is_xml(text) and not self.reads_xml

    # ---- an input, read by both

    def compare(self, name, text, words=(), own="", tool=None, sources=False):
        try:
            found, told, lines = self.read(text, own, tool)
        except reader.Refused as e:
            return self.refused(name, text, words, e)
        if not self.program:
            return None
        status = int(any(it["severity"] == "error" for it in found))
        printed = sorted("\n".join(told + lines).split("\n")) if told or lines else []
        given = self.run(text, "--to", "problems", "--raw", *words)
        want = "".join(problem(it) + "\n" for it in found)
        self.check(given[:2] == (status, want), f"{name}: findings", text, given, (status, want))
        self.check(sorted(given[2].splitlines()) == printed, f"{name}: what is printed beside them", text, given[2], printed)
        self.documents(name, text, words, found, self.empty, {})
        if sources:
            self.documents(f"{name}, with sources", text, words, found, self.full, self.sources)
        return None

    def refused(self, name, text, words, e):
        """A refusal: status 3, one line with a place, nothing on standard output."""
        if not self.program:
            return
        begin = {"cut": f"{e.where}: input ends in the JSON that begins here", "JSON": r"line \d+, column \d+: input is no JSON", "XML": r".*line \d+.*"}
        is_known = e.wanted in begin
        pattern = begin[e.wanted] if is_known else re.escape(reader.harmless(str(e))) + "(; .*)?"
        status, out, err = self.run(text, "--to", "problems", *words)
        is_line = re.fullmatch(f"girzohal: {pattern}\n", err) is not None
        self.check((status, out) == (3, "") and is_line, f"{name}: refused", text, (status, out, err), pattern)

    def documents(self, name, text, words, found, root, sources):
        """Whole reports, as the document has them."""
        status, out, err = self.run(text, "--to", "document", "--raw", *words, root=root)
        try:
            document = json.loads(out)
        except ValueError:
            return self.check(False, f"{name}: a document", text, status, out, err)
        reports = document["reports"]
        self.check(len(reports) == len(found), f"{name}: as many reports", text, len(reports), len(found))
        for at, (report, it) in enumerate(zip(reports, found)):
            file = document["files"][report["file"]]["name"]
            said = (file, report["message"], report.get("severity", "error"), report.get("scope"), report.get("number"), report.get("url"))
            want = (it["place"]["file"] or "", it["message"], it["severity"], it["scope"] if it["code"] else None, it["code"], it["url"])
            self.check(said == want, f"{name}: report {at}", text, said, want)
            self.report(f"{name}: report {at}", text, report, it, sources.get(file))
        return None

    def report(self, name, text, report, it, source):
        span = reader.span_of(it["place"], source) if source is not None else None
        help_lines, want = (report.get("help") or ""), texts_of(it, "help")
        self.check(help_lines.startswith(it["help"] or "") and all(line in help_lines for line in want), f"{name}: help", text, help_lines, want)
        note, want = report.get("note") or "", texts_of(it, "note")
        if span is None and (it["place"]["file"] or it["place"]["line"]):
            want = want + [place_line(it["place"])]
        is_right = note.startswith("\n".join(want[:-1])) and all(line in note for line in want) if want else note == "" or span is not None
        self.check(is_right, f"{name}: note", text, note, want)
        labels = report.get("labels", [])
        heads = [tuple(label["bytes"]) for label in labels if label.get("primary")]
        self.check(heads == ([span] if span is not None else []), f"{name}: its span", text, labels, span, it["place"])
        if span is None:
            return
        marks = [side for side in it["sides"] if side["key"] == "labels" and side["place"]["file"] in (None, it["place"]["file"])]
        others = [(reader.span_of(side["place"], source), side["text"]) for side in marks]
        missing = [(other, words) for other, words in others if other not in (None, span) and not any(tuple(label["bytes"]) == other and label.get("text") == words for label in labels)]
        self.check(not missing, f"{name}: its labels", text, labels, missing)

    # ---- tries

    def try_samples(self):
        """Samples of each form: all parts, and some; alone and named; between other lines; two inputs, one after the other."""
        sampler, texts = Sampler(self.seed), []
        for form in self.forms:
            for turn in range(3):
                values = sampler.values(form, turn == 0)
                text = sampler.text(values)
                name = f"{form.name} {turn}"
                found = self.read(text)[0]
                is_own = {it["form"] for it in found} == ({form.name} if form.lists else set())
                self.check(is_own, f"{name}: the sample has its form alone", text)
                self.compare(name, text, ("--from", "json") if turn else (), sources=True)
                if turn == 1:
                    if form.lists:
                        self.compare(f"{name}, named", text, ("--from", "json", "--tool", form.name), tool=form.name)
                    self.compare(f"{name}, between lines", f"checking 3 files\n{text}\nall done.\n", ("--from", "json"))
                    texts.append((name, text))
        for at, (name, text) in enumerate(texts):
            other, more = texts[(at * 7 + 3) % len(texts)]
            both = text + random.Random(at).choice(["", "\n", "\n\n", "\n note \n"]) + more
            self.compare(f"{name} and {other}", both, ("--from", "json"))
            front, back = self.read(text), self.read(more)
            self.check(len(self.read(both)[0]) == len(front[0]) + len(back[0]), f"{name} and {other}: as many findings as both", both)

    def try_rows(self):
        """Rows worked out by hand: the second reader and the program have to agree with them."""
        for what, words, text, status, out, err in value_rows.ROWS:
            if self.lacks(text):
                continue
            own, tool, words = [words[at + 1] for at, word in enumerate(words) if word == "--json-shape"], None, list(words)
            if "--tool" in words:
                tool = words[words.index("--tool") + 1]
            try:
                found, told, lines = self.read(text, "\n".join(own), tool)
                said = (int(any(it["severity"] == "error" for it in found)), [problem(it) for it in found], told + lines)
            except reader.Refused as e:
                said = (3, [], [f"girzohal: {e}"] if e.where != "line" else err)
            self.check(said == (status, out, err) or status == 3 and said[0] == 3 and err[0].startswith(said[2][0].split(": wanted cut")[0]),
                       f"row {what}, by the second reader", text, said, (status, out, err))
            if self.program:
                given = self.run(text, "--to", "problems", *words)
                # (a refusal may go on with a hint; no page says at which column JSON is wrong)
                printed = [re.sub(r"column \d+: input is no", "column N: input is no", line.split(";")[0]) if status == 3 else line for line in given[2].splitlines()]
                is_right = (given[0], given[1].splitlines(), printed) == (status, out, err)
                self.check(is_right, f"row {what}", text, given, (status, out, err))
        if self.program:
            self.try_files()
            self.try_filters()
            self.try_hostile()
            self.try_speed()

    def try_files(self):
        """Forms of one's own in a file, and columns over a source."""
        path = os.path.join(self.room, "own.txt")
        with open(path, "w", encoding="utf-8") as file:
            file.write("# mine\n\nlist=issues[] file=path line=row message=text\n")
        given = self.run('{"issues": [{"path": "a.c", "row": 2, "text": "m"}]}', "--to", "problems", "--json-shapes", path)
        self.check(given == (1, "a.c:2:0:0:0: error: m\n", ""), "forms in a file", given)
        given = self.run("{}", "--to", "problems", "--json-shapes", path + ".gone")
        self.check(given[:2] == (4, "") and "own.txt.gone" in given[2], "forms in a file that is missing", given)
        given = self.run("{}", "--to", "problems", "--json-shape", "list=x fil=y message=z")
        self.check(given[0] in (2, 3) and given[1] == "" and "fil=y" in given[2], "a form that is none", given)
        for what, text, wanted in value_rows.SPANS:
            if self.lacks(text):
                continue
            status, out, err = self.run(text, "--to", "document", root=self.full)
            labels = [label for report in (json.loads(out)["reports"] if out else []) for label in report.get("labels", []) if label.get("primary")]
            source = self.sources["b.py"].encode()
            said = [source[label["bytes"][0]:label["bytes"][1]].decode() for label in labels]
            self.check(said == wanted, f"columns: {what}", text, said, wanted, err)

    def try_filters(self):
        """Filters over JSON: a baseline of the same tool's JSON, rules, severities and rows of a diff."""
        text = "[" + ", ".join('{"file": "a.sh", "line": %d, "column": 1, "level": "%s", "code": "C%d", "message": "m %d"}' % (row, level, row, row)
                               for row, level in enumerate(("error", "warning", "info", "style"), 1)) + "]"
        for name, content in (("old.json", text), ("changes.diff", "--- a/a.sh\n+++ b/a.sh\n@@ -2,0 +3,2 @@\n+x\n+y\n")):
            with open(os.path.join(self.room, name), "w", encoding="utf-8") as file:
                file.write(content)
        for words, rows, told in ((("--baseline", "old.json"), "", "0 of 4 findings: 4 in the baseline"), (("--changed", "changes.diff"), "34", "2 of 4 findings: 2 not on added lines"),
                                  (("--severity", "warning"), "12", "2 of 4 findings: 2 not selected"), (("--select", "hadolint(C[34])"), "", "0 of 4 findings: 4 not selected"),
                                  (("--select", "C3", "--select", "hadolint/C4"), "34", "2 of 4 findings: 2 not selected")):
            given = self.run(text, "--to", "problems", *words)
            is_right = re.findall(r"^a\.sh:(\d)", given[1], re.M) == list(rows) and given[2] == f"girzohal: {told}\n" and given[0] == int("1" in rows)
            self.check(is_right, f"filters: {' '.join(words)}", given, rows, told)

    def try_hostile(self):
        """Texts that would drive a terminal: in findings, in what is told beside them, and in refusals."""
        bad = "\\u001b]0;t\\u0007\\u009b31m\\r\\u202e\\u2066"
        ruff = '[{"filename": "B", "location": {"row": 1, "column": 1}, "end_location": {"row": 1, "column": 2}, "code": "B", "message": "B", "url": "B", "fix": {"message": "B", "B": 1, "edits": [{"content": "B"}]}}]'
        inputs = [ruff, '{"B": [{"B": 1}]}', '{"message": "B", "level": "B", "spans": [], "children": [{"message": "B"}]}', '{"message": "aborting due to B", "level": "error", "spans": []}',
                  '{"totals": {"fixable": 0}, "files": {"B": {"messages": [{"message": {}}]}}}', '{"totals": {"fixable": 0}, "files": {"B": {"messages": [null]}}}', '[{"B": 1} "B"]',
                  '<checkstyle><file name="\u009b\u202e"><error line="1" message="\u009b&#x202e;&#x9b;" source="\u202e"/><error line="\u009b" message="m"/></file></checkstyle>']
        for text in inputs:
            if self.lacks(text):
                continue
            for form in ("drawing", "json", "document", "sarif", "problems", "github", "gitlab", "checkstyle", "junit", "stylish", "summary", "markdown", "html"):
                status, out, err = self.run(text.replace("B", bad), "--to", form)
                drives = re.search("[\x00-\x08\x0b-\x1f\x7f-\x9f\u202a-\u202e\u2066-\u2069]", out + err)
                self.check(drives is None and status in (0, 1, 3), f"a hostile input as {form}", text, status, out, err)

    def try_speed(self):
        """Inputs of twice the length take at most about twice the time: findings, values, and brackets that don't close."""
        one = '{"file": "a.sh", "line": 7, "column": 1, "level": "info", "code": "C1", "message": "m", "x": %s}'
        for name, make in (("findings", lambda count: "[" + ", ".join([one % 1] * count) + "]"), ("values", lambda count: ("[" + one % 1 + "]\n") * count),
                           ("brackets", lambda count: "[{" * count), ("empty values", lambda count: "{}[]" * count), ("lines", lambda count: "{}\n" + "no finding\n" * count),
                           ("a text", lambda count: "[" + one % ('"' + "\\\\" * 20 * count + '"') + "]"), ("members", lambda count: "{" + ", ".join(f'"k{at}": {{}}' for at in range(count)) + "}")):
            took = []
            for count in (10000, 20000):
                text, began = make(count), time.monotonic()
                status, out, err = self.run(text, "--to", "problems", "--from", "json")
                took.append(time.monotonic() - began)
            self.check(took[1] < 2 + 4 * took[0] and took[1] < 30 and status in (0, 1, 3), f"twice as many {name}", took, status, err[:200])

    def try_cut(self):
        """Inputs that end in the middle, and values that nest as deep as they may and deeper."""
        sampler, chance = Sampler(self.seed + 1), random.Random(self.seed)
        for form in self.forms:
            text = text_of(sampler.values(form, True)[0])
            at = chance.randrange(1, len(text))
            self.compare(f"{form.name} cut at {at}", text[:at], ("--from", "json"))
        for deep in (120, 124, 125, 126, 127, 200):
            nested = "[" * deep + "]" * deep
            value = '[{"filename":"a.py","location":{"row":1,"column":2},"end_location":{"row":1,"column":3},"code":"E1","message":"m","more":%s}]' % nested
            self.compare(f"nested {deep + 2} deep", value, ("--from", "json"))

    def try_mutants(self):
        """Mutants of samples of each form and of those of a folder: read as by the second reader, or refused at the same place."""
        sampler = Sampler(self.seed + 2)
        for at in range(self.mutants):
            name, values = self.sample(sampler, at)
            name, before = f"{at} of {name}, seed {self.seed}", self.findings(self.text(values))
            mixed = self.text([sampler.reordered(it) for it in values])
            self.compare(f"reordered {name}", mixed, ("--from", "json"), sources=at % 8 == 0)
            if before and not any(it["form"] in self.by_members() for it in before):
                after = self.findings(mixed)
                self.check(after is not None and list(map(problem, after)) == list(map(problem, before)), f"reordered {name}: the same is found", mixed)
            wrong = [sampler.mutant(it) for it in values]
            if at % 2:
                wrong = [sampler.mutant(it) for it in wrong]
            text = sampler.text(wrong)
            if text.lstrip()[:1] in ("{", "["):
                self.compare(f"wrong {name}", text, ("--from", "json"), sources=at % 4 == 0)
            text = sampler.text(values)
            self.compare(f"cut {name}", text[:sampler.random.randrange(len(text) + 1)], ("--from", "json"))
            other, more = self.sample(sampler, sampler.random.randrange(10 ** 6))
            both = self.text(values) + sampler.random.choice(["", "\n", "\n\n", "\nnothing here\n"]) + self.text(more)
            self.compare(f"two inputs {name} and {other}", both, ("--from", "json"))
            after, last = self.findings(both), self.findings(self.text(more))
            if before is not None and last is not None:
                self.check(after is not None and list(map(problem, after)) == list(map(problem, before + last)), f"two inputs {name} and {other}: what is in both", both)
            lines = sampler.random.sample(["checking 3 files", "[1/3] done", "", "  all {done}", "]", "\u00e9 \"x"], 2)
            self.compare(f"beside {name}", lines[0] + "\n" + self.text(values) + "\n" + lines[1] + "\n", ("--from", "json"))

    def sample(self, sampler, at):
        """A name and values: of a form, and of each third number of a sample of the folder."""
        if self.given and at % 3 == 2:
            return self.given[at // 3 % len(self.given)]
        form = self.forms[at % len(self.forms)]
        return form.name, sampler.values(form, at % 2 == 0)

    def text(self, values):
        return "\n".join(map(text_of, values)) + "\n"

    def findings(self, text):
        try:
            return self.read(text)[0]
        except reader.Refused:
            return None

    def by_members(self):
        """The forms that go to members in their order."""
        return {form.name for form in self.forms if any(("member",) in lines.steps for lines in form.lists)}

    def try_xml(self):
        """Samples of XML, and mutants of them."""
        if self.program and not self.reads_xml:
            print("skipped: XML: the table of forms has none of it")
            return
        chance = random.Random(self.seed)
        for name, text in value_rows.XML:
            self.compare(f"XML {name}", text, sources=True)
        for name, text in value_rows.XML_REFUSED:
            self.compare(f"XML {name}", text)
        for at in range(self.mutants):
            name, text = self.given_xml[at % len(self.given_xml)]
            name, before = f"{at} of XML {name}, seed {self.seed}", self.findings(text)
            mixed = re.sub(r"(<[A-Za-z][\w.-]*)((?:\s+[\w.-]+=(?:\"[^\"<]*\"|'[^'<]*'))+)", lambda it: it[1] + self.mixed(chance, it[2]), text)
            self.compare(f"reordered {name}", mixed, sources=at % 8 == 0)
            self.check(str(self.findings(mixed)) == str(before), f"reordered {name}: the same is found", mixed)
            self.xml_mutants(chance, name, text)

    def mixed(self, chance, attributes):
        parts = re.findall(r"\s+[\w.-]+=(?:\"[^\"<]*\"|'[^'<]*')", attributes)
        return "".join(chance.sample(parts, len(parts)))

    def xml_mutants(self, chance, name, text):
        attributes = list(re.finditer(r"\s([\w.-]+)=(\"[^\"<]*\"|'[^'<]*')", text))
        if attributes:
            it = chance.choice(attributes)
            wrong = chance.choice(["", f' {it[1]}=""', f' {it[1]}="x"', f' {it[1]}="-3"', f' {it[1]}="4294967296"', f" {it[1]}='007'", ' x="y"', f" {it[1]}=\"&#233;&#x1d54f;\"",
                                   f" {it[1]}={it[2]}" * 2, f' {it[1]}="eslint.rules.x"', f' {it[1]}="com.puppycrawl.X"'])
            self.compare(f"wrong {name}", text[:it.start()] + wrong + text[it.end():], sources=chance.random() < 0.25)
        changed = text
        for _ in range(chance.randrange(1, 3)):
            start = chance.randrange(len(changed))
            changed = changed[:start] + chance.choice(["", "<", ">", "/", '"', "'", "&", ";", "&lt;", "&#65;", "&#0;", "&x;", "x", "=", "<a>", "</a>", "<a/>", "<!-- c -->", "<!--", "-->", "]]>",
                                                        "<![CDATA[<b>]]>", "<?x y?>", "<!DOCTYPE x>", "\u00e9", "\x01", "\ufffe", " ", "\n", "\t", "1", ' b="1"']) + changed[start + chance.choice([0, 0, 1, 2, 5]):]
        cut = text[:chance.randrange(len(text) + 1)]
        for kind, it in (("changed", changed), ("cut", cut), ("two inputs", text + chance.choice(["", "\n"]) + value_rows.XML[0][1])):
            if reader.is_xml(it):
                self.compare(f"{kind} {name}", it)

    # ---- samples of a folder

    def try_folder(self, folder):
        for name in sorted(os.listdir(folder)):
            if name.endswith(".expected") or not os.path.isfile(os.path.join(folder, name + ".expected")):
                continue
            with open(os.path.join(folder, name), encoding="utf-8", newline="") as file:
                text = file.read()
            with open(os.path.join(folder, name + ".expected"), encoding="utf-8") as file:
                wanted = json.load(file)
            is_xml = reader.is_xml(text)
            try:
                found = self.read(text)[0]
            except reader.Refused as e:
                self.check(isinstance(wanted, dict), f"{name}: read", e, wanted)
            else:
                self.check(isinstance(wanted, list) and pairs_off(found, wanted), f"{name}: read as expected", [problem(it) for it in found], wanted)
                if not is_xml:
                    self.given.append((name, [reader.parse(body) for row, body in reader.cut(text) if row is not None]))
                elif len(text) < 20000:
                    self.given_xml.append((name, text))
            if not self.lacks(text):
                # (lines beside need the form said)
                self.compare(name, text, () if is_xml or text.lstrip("\ufeff \t\r\n")[:1] in ("{", "[") else ("--from", "json"))


def fits(it, wanted):
    """Whether a finding is as is expected: by what is said of it."""
    message, code, sides = it["message"], it["code"] or "", [side["key"] for side in it["sides"]]
    columns = [it["place"]["column"]] + [side["place"]["column"] for side in it["sides"] if side["key"] == "labels"]
    start, end = it["place"]["offsets"] or (None, None)
    has = {**it["place"], **{key: it[key] for key in ("severity", "code", "message", "help", "note", "url", "scope")}, "offset": start, "end_offset": end,
           "edits": sides.count("edits"), "labels": sides.count("labels")}
    rules = {"file": lambda name: (has["file"] or "").rsplit("/", 1)[-1] == name.rsplit("/", 1)[-1], "begins": lambda text: text.startswith(message.split("\n")[0]),
             "begins_with": lambda text: message.replace("\n", " ").startswith(text.replace("\n", " ")), "message_strip": lambda text: message.strip() == text.strip(),
             "message_start": lambda text: message.strip().startswith(text), "message_has": lambda text: text in message, "code_has": lambda text: text in code,
             "message_code": code.endswith, "caret": lambda column: column in columns or (has["column"] or 2 ** 32) <= column}
    return all(rules[key](value) if key in rules else has.get(key) == value for key, value in wanted.items())


def pairs_off(found, wanted):
    left = list(found)
    for it in wanted:
        at = next((at for at, own in enumerate(left) if fits(own, it)), None)
        if at is None:
            return False
        left.pop(at)
    return not left


def main():
    words, options = sys.argv[1:], {}
    while len(words) > 2 and words[-2] in ("--open", "--mutants", "--seed"):
        options[words[-2]] = words[-1]
        words = words[:-2]
    if len(words) != 1:
        sys.exit(__doc__)
    with tempfile.TemporaryDirectory() as room:
        tries = Tries(words[0], int(options.get("--mutants", 60)), int(options.get("--seed", 5)), room)
        if "--open" in options:
            tries.try_folder(options["--open"])
        for name in ("samples", "rows", "cut", "mutants", "xml"):
            getattr(tries, "try_" + name)()
    print(f"{tries.passed} passed, {tries.failed} failed")
    return int(tries.failed > 0)


if __name__ == "__main__":
    sys.exit(main())
