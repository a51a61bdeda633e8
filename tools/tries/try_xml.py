#!/usr/bin/env python3
"""Compares what `girzohal` reads of Checkstyle's XML with Python's reader of XML: documents made at random and written in many ways, and
documents that are broken. Each is given on standard input, and the findings come back as Checkstyle's XML.

usage: try_xml.py PROGRAM [--cases N] [--seed S]      (crates/girzohal/out/girzohal after `rt run` there)

The last line is `N passed, M failed`; the status is 0 if M is 0."""
import random
import re
import subprocess
import sys
import xml.etree.ElementTree as tree

sys.dont_write_bytecode = True

TEXTS = ["a.c", "src/é.py", "a & b", "x < y", "it's \"so\"", "tab\there", "row\nnext", "😀", "]]>", "&amp;", "E501", "  blank  "]
PARTS = ["<!-- a - b -->", "<?x y?>", "\n  ", "\r\n", "\t", "<other/>", "<other a='1'>text</other>", "<![CDATA[ <b> ]]>", "text &lt; &#x41;"]
PIECES = ["<", ">", "/", '"', "'", "&", ";", "=", " ", "\n", "<a>", "</a>", "<!--", "-->", "]]>", "&x;", "&#0;", "<!DOCTYPE x>", "\x01", "\ufffe", ' line="1"']
SEVERITIES = ["error", "warning", "info", "ignore"]


class Tries:
    def __init__(self, program, cases, seed):
        self.program, self.cases, self.random = program, cases, random.Random(seed)
        self.passed = self.failed = 0

    def check(self, is_right, name, *told):
        self.passed += is_right
        self.failed += not is_right
        if not is_right and self.failed < 20:
            print("FAILED:", name, *(ascii(it)[:600] for it in told))

    def spelled(self, text):
        """An attribute's value with its quotes."""
        quote = self.random.choice("\"'")
        names = {"&": ["&amp;", "&#38;"], "<": ["&lt;", "&#x3C;"], ">": ["&gt;", ">"], '"': ["&quot;"], "'": ["&apos;"]}
        spell = {"\t": ["&#9;"], "\n": ["&#10;", "&#xA;"], "\r": ["&#13;"]}
        said = ""
        for char in text:
            ways = names.get(char) or spell.get(char) or [char, char, char, f"&#{ord(char)};"]
            said += self.random.choice(ways)
        return quote + said + quote

    def element(self, name, parts, inner):
        blank = lambda least: self.random.choice([" ", "\n", "\t ", "\r\n"]) if least else self.random.choice(["", "", " "])
        tag = "<" + name + "".join(f"{blank(1)}{key}{blank(0)}={blank(0)}{self.spelled(text)}" for key, text in parts) + blank(0)
        if not inner and self.random.random() < 0.6:
            return tag + "/>"
        return tag + ">" + inner + f"</{name}{blank(0)}>"

    def document(self):
        """A document, with the findings that it says."""
        found, files = [], ""
        for at in range(self.random.randrange(4)):
            name = f"f{at}" + self.random.choice(["", ".c", "/é.py"])
            errors = ""
            for _ in range(self.random.randrange(4)):
                row, severity = self.random.randrange(1, 99), self.random.choice(SEVERITIES)
                message, code = "m" + self.random.choice(TEXTS) + "m", self.random.choice(["E501", "no-undef", "a.b"])
                parts = [("line", str(row)), ("severity", severity), ("message", message), ("source", code)]
                self.random.shuffle(parts)
                errors += self.random.choice(PARTS + [""] * 9) + self.element("error", parts, self.random.choice(PARTS + [""] * 9))
                found.append((name, str(row), {"ignore": "info"}.get(severity, severity), message, code))
            files += self.random.choice(PARTS + [""] * 9) + self.element("file", [("name", name)], errors)
        head = self.random.choice(["", "\ufeff", '<?xml version="1.0"?>', '<?xml version="1.0" encoding="UTF-8"?>\n<!-- x -->', "<?xml version='1.0' encoding='utf-8' ?>\n"])
        return head + self.element("checkstyle", [("version", "4.3")], files) + self.random.choice(["", "\n", "<!-- end -->\n"]), found

    def run(self, text):
        return subprocess.run([self.program, "--to", "checkstyle"], input=text.encode("utf-8", "surrogatepass"), capture_output=True, timeout=60)

    def read(self, text):
        text, found = text
        said = self.run(text)
        try:
            back = [(file.get("name"), it.get("line"), it.get("severity"), it.get("message"), it.get("source"))
                    for file in tree.fromstring(said.stdout) for it in file]
        except tree.ParseError:
            back = None
        status = int(any(it[2] == "error" for it in found))
        self.check(back is not None and sorted(back) == sorted(found) and said.returncode == status, "read", text, back, found, said.stderr)

    def broken(self, text):
        start = text.index("<checkstyle")
        for _ in range(self.random.randrange(1, 3)):
            at = self.random.randrange(start, len(text) + 1)
            text = text[:at] + self.random.choice(PIECES + [""]) + text[at + self.random.choice([0, 0, 1, 3]):]
        try:
            # (nothing in an instruction counts)
            tree.fromstring(re.sub(r"<\?.*?\?>", "<?x?>", text, flags=re.S).encode("utf-8", "surrogatepass"))
            is_xml = True
        except tree.ParseError:
            is_xml = False
        if is_xml or not text.startswith(("<?xml ", "<checkstyle ")):
            return
        said = self.run(text)
        is_refused = said.returncode == 3 and said.stdout == b"" and said.stderr.startswith(b"girzohal: ")
        self.check(is_refused, "refused", text, said.returncode, said.stdout, said.stderr)

    def all(self):
        for _ in range(self.cases):
            text = self.document()
            self.read(text)
            self.broken(text[0])
        deep = "<checkstyle>" + "<a>" * 126 + "</a>" * 126 + "</checkstyle>"
        self.read((deep, []))
        said = self.run("<?xml version='1.0'?><!DOCTYPE checkstyle [<!ENTITY a 'aa'>]><checkstyle/>")
        self.check(said.returncode == 3 and b"document type" in said.stderr, "a document type", said.stderr)
        said = self.run(deep.replace("<a>", "<a><a>", 1).replace("</a>", "</a></a>", 1))
        self.check(said.returncode == 3 and b"127" in said.stderr, "nested deeper than 127", said.stderr)


def main():
    words, options = sys.argv[1:], {}
    while len(words) > 1 and words[-2] in ("--cases", "--seed"):
        options[words[-2]] = int(words[-1])
        words = words[:-2]
    if len(words) != 1:
        sys.exit(__doc__)
    tries = Tries(words[0], options.get("--cases", 300), options.get("--seed", 5))
    tries.all()
    print(f"{tries.passed} passed, {tries.failed} failed")
    sys.exit(tries.failed > 0)


if __name__ == "__main__":
    main()
