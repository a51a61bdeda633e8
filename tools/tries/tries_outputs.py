#!/usr/bin/env python3
"""What `girzohal` writes to files and as a page, tried by `try_girzohal.py`."""
import json
import os
import re
import stat
import tempfile
from html.parser import HTMLParser

LINES = b"make all\na.c:2:5: error: no such name [x]\nsub/b.c:1:1: warning: <b>&amp;\"'\nnothing.c:3: note: gone\n"
# What would end an element, an attribute or a tag, and what drives a terminal.
HOSTILE = "</pre></script><script>alert(1)</script><img src=x onerror=\"x()\">'\"&lt;&#x3c;\x1b[0m\x1b]0;t\x07\u202e\r\x00--><![CDATA["
ALLOWED = {"html": {"lang"}, "head": set(), "meta": {"charset", "name", "content"}, "title": set(), "style": set(), "body": set(), "h1": set(), "h2": set(),
           "details": {"open"}, "summary": set(), "ul": set(), "li": set(), "a": {"href"}, "pre": {"id"}, "span": {"class"}}
CLASSES = {"error", "warning", "info", "link", "row", "first", "second", "third"}
FORMS = ("json", "document", "sarif", "problems", "github", "gitlab", "checkstyle", "junit", "stylish", "summary", "markdown", "html", "drawing")


class Page(HTMLParser):
    """A page as another reader of HTML sees it: the text of each `<pre>`, and what is wrong."""

    def __init__(self, text):
        super().__init__(convert_charrefs=True)
        self.open, self.wrong, self.pres, self.ids, self.links, self.summaries, self.items = [], [], [], [], [], [], []
        self.feed(text)
        self.close()
        if self.open:
            self.wrong.append(f"open at the end: {self.open}")

    def handle_starttag(self, tag, attributes):
        if tag not in ALLOWED or not {name for name, _ in attributes} <= ALLOWED[tag]:
            self.wrong.append(f"a tag: {tag} {attributes}")
        for name, value in attributes:
            if name == "class" and value not in CLASSES or name == "href" and not re.fullmatch("#f[0-9]+", value):
                self.wrong.append(f"an attribute: {name}={value}")
            if name == "id":
                self.ids.append(value)
            if name == "href":
                self.links.append(value[1:])
        if tag == "span" and "span" in self.open:
            self.wrong.append("a span in a span")
        if tag == "pre":
            self.pres.append("")
        if tag == "summary":
            self.summaries.append("")
        if tag == "li":
            self.items.append("")
        if tag != "meta":
            self.open.append(tag)

    def handle_endtag(self, tag):
        if not self.open or self.open.pop() != tag:
            self.wrong.append(f"an end: {tag}")

    def handle_comment(self, data):
        self.wrong.append(f"a comment: {data}")

    def handle_pi(self, data):
        self.wrong.append(f"an instruction: {data}")

    def unknown_decl(self, data):
        self.wrong.append(f"a declaration: {data}")

    def handle_data(self, data):
        for tag, texts in (("pre", self.pres), ("summary", self.summaries), ("li", self.items)):
            if tag in self.open:
                texts[-1] += data

    def drawings(self):
        """The texts of the `<pre>`, each without the LF behind its tag, which HTML drops."""
        return [text[1:] if text.startswith("\n") else text for text in self.pres]


class OutputTries:
    """The tries of this file. `check`, `ends`, `run` and `room` are those of `Tries`."""

    # ---- pages

    def page(self, what, *words, **how):
        said = self.run("--to", "html", *words, **how)
        page = Page(said.stdout.decode())
        self.check(f"a page: {what}: {page.wrong}", said.returncode in (0, 1) and not page.wrong, said)
        self.check(f"a page: {what}: each link has a place", sorted(page.links) == sorted(page.ids) and len(set(page.ids)) == len(page.ids), said)
        self.check(f"a page: {what}: nothing from outside", not re.search(r"(?i)<script|src=|url\(|@import|https?:", said.stdout.decode().split("<body>")[0]), said)
        return page, said

    def try_pages(self):
        """A page has the drawings, and nothing that an input says gets out of its place."""
        plain = ("--color", "never", "--no-summary", "--only-findings")
        for words in ((), ("--color", "always"), ("--ascii",), ("--width", "40"), ("--tabs", "8")):
            page, said = self.page(f"lines {words}", *words, given=LINES)
            looks = [word for word in words if word not in ("--color", "always")]
            drawn = self.run(*(plain if "--ascii" not in words else plain[2:]), *looks, given=LINES).stdout.decode()
            self.check(f"a page {words}: its text is the drawings", sorted("".join(page.drawings())) == sorted(drawn), said)
            self.check(f"a page {words}: one drawing for each finding", len(page.pres) == 3)
            styled = 'class="third"' in said.stdout.decode() or 'class="first"' in said.stdout.decode()
            self.check(f"a page {words}: styles are classes", styled == ("--ascii" not in words), said)
        self.check("a page: headings of rules, then of files",
                   page.summaries == ["error x (1)", "warning (no rule) (1)", "note (no rule) (1)", "a.c (1)", "nothing.c (1)", "sub/b.c (1)"], said)
        self.check("a page: links", page.items == ["a.c:2:5 no such name", "sub/b.c:1:1 <b>&amp;\"'", "nothing.c:3 gone"], said)
        self.check("a page: what stands between findings goes to the error output", said.stderr == b"make all\n", said)
        page, said = self.page("nothing", given=b"")
        self.check("a page: no findings", not page.pres and b"<h1>no findings\n</h1>" in said.stdout and said.returncode == 0, said)
        files = [{"name": HOSTILE, "source": HOSTILE + "\n"}, {"name": "a.c", "source": "int x;\n"}, {"name": "a.c", "source": "other;\n"}]
        label = {"start": [1, 1], "end": [1, 8], "text": HOSTILE}
        reports = [{"file": file, "message": HOSTILE, "help": HOSTILE, "note": HOSTILE, "scope": HOSTILE, "number": "1", "labels": [label] if file == 0 else []}
                   for file in (0, 1, 2, 1)]
        given = json.dumps({"version": 2, "files": files, "reports": reports}).encode()
        for words in ((), ("--raw",)):
            page, said = self.page(f"hostile texts {words}", *words, given=given)
            self.check(f"a page: hostile texts {words}: all drawings", len(page.pres) == 4, said)
        page, said = self.page("hostile texts", given=given)
        drawn = self.run(*plain, given=given).stdout.decode()
        self.check("a page: hostile texts are drawn by file", sorted("".join(page.drawings())) == sorted(drawn), said)
        self.check("a page drives no terminal", not re.search("[\x00-\x09\x0b-\x1f\x7f-\x9f\u202a-\u202e\u2066-\u2069]", said.stdout.decode()), said)

    # ---- files

    def try_outputs(self):
        """Each output is what a run with its form alone writes."""
        with tempfile.TemporaryDirectory() as folder:
            os.mkdir(f"{folder}/sub")
            for name, text in (("a.c", "int x;\nint totl;\n"), ("sub/b.c", "below\n"), ("in.txt", LINES.decode())):
                with open(f"{folder}/{name}", "w", encoding="utf-8") as file:
                    file.write(text)
            log = self.run("--to", "sarif", given=LINES, cwd=folder).stdout
            document = self.run("--to", "document", given=LINES, cwd=folder).stdout
            for what, given in (("lines", LINES), ("a log", log), ("a document", document)):
                alone = {form: self.run("--to", form, given=given, cwd=folder) for form in FORMS}
                words = [word for form in FORMS for word in ("-o", f"{form}=out.{form}")]
                said = self.ends(f"files of {what}", alone["json"].returncode, *words, given=given, cwd=folder)
                self.check(f"files of {what}: nothing is printed", said.stdout == b"", said)
                self.check(f"files of {what}: the rest of the input, once", said.stderr == alone["json"].stderr, said)
                for form in FORMS:
                    self.check(f"a file of {what} as {form}", self.made(folder, f"out.{form}") == alone[form].stdout)
                for form in FORMS:
                    said = self.run("--to", form, "-o", "sarif=log.sarif", "-o", "html=page.html", given=given, cwd=folder)
                    self.check(f"{what}: {form} beside files", (said.returncode, said.stdout, said.stderr)
                               == (alone[form].returncode, alone[form].stdout, alone[form].stderr), said)
                    self.check(f"{what}: files beside {form}", self.made(folder, "log.sarif") == alone["sarif"].stdout and self.made(folder, "page.html") == alone["html"].stdout)
                    said = self.run("-o", f"{form}=-", given=given, cwd=folder)
                    self.check(f"{what}: {form} to -", (said.returncode, said.stdout, said.stderr) == (alone[form].returncode, alone[form].stdout, alone[form].stderr), said)
            said = self.ends("a file to read and files to write", 1, "in.txt", "-o", "problems=p.txt", given=b"", cwd=folder)
            self.check("a file to read and files to write: as written", self.made(folder, "p.txt") == self.run("--to", "problems", given=LINES, cwd=folder).stdout, said)
            self.check("no file is left beside the others", not [name for name in os.listdir(folder) if name.endswith(".part")])
            self.try_kept(folder)
            self.try_links(folder)

    def made(self, folder, name):
        with open(f"{folder}/{name}", "rb") as file:
            return file.read()

    def try_kept(self, folder):
        """After an error each file has what it had."""
        for name in ("one", "two"):
            with open(f"{folder}/{name}", "wb") as file:
                file.write(b"old\n")
        words = ("-o", "json=one", "-o", "sarif=none/here", "-o", "html=two")
        for what, status, err, more, given in (
                ("a folder that isn't there", 5, b"girzohal: none/here can't be written\n", words, LINES),
                ("a folder", 5, b"girzohal: sub can't be written\n", ("-o", "json=one", "-o", "html=two", "-o", "json=sub"), LINES),
                ("no form", 3, b"JSON", ("-o", "json=one", "-o", "html=two"), b'[{"a": 1}]'),
                ("a cut log", 3, b"JSON", ("--from", "sarif", "-o", "json=one", "-o", "html=two"), b'{"runs": ['),
                ("a name that drives a terminal", 5, b"girzohal: none/?[2J can't be written\n", ("-o", "json=none/\x1b[2J", "-o", "json=one"), LINES),
                ("a full disk", 5, b"girzohal: /dev/full can't be written\n", ("-o", "json=/dev/full",), LINES)):
            said = self.ends(f"files: {what}", status, *more, given=given, cwd=folder, err=err)
            self.check(f"files: {what}: each has what it had", self.made(folder, "one") == self.made(folder, "two") == b"old\n", said)
            self.check(f"files: {what}: nothing is printed", said.stdout == b"", said)
            self.check(f"files: {what}: none is left", not [name for name in os.listdir(folder) if ".part" in name])
        said = self.run("--to", "json", *words, given=LINES, cwd=folder)
        self.check("files: an error comes before anything is printed", said.returncode == 5 and said.stdout == b"", said)

    def try_links(self, folder):
        """A link stays, and the file that it leads to is replaced; a device gets the text."""
        os.symlink("two", f"{folder}/link")
        wanted = self.run("--to", "json", given=LINES, cwd=folder).stdout
        said = self.ends("a file through a link", 1, "-o", "json=link", given=LINES, cwd=folder)
        self.check("a file through a link: it stays one", stat.S_ISLNK(os.lstat(f"{folder}/link").st_mode) and self.made(folder, "two") == wanted, said)
        said = self.ends("a device", 1, "-o", "json=/dev/stdout", given=LINES, cwd=folder)
        self.check("a device gets the text", said.stdout == wanted, said)
