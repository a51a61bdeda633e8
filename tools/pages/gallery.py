#!/usr/bin/env python3
"""Makes docs/GALLERY.md, and the drawings that tools/tries/quick_cases.py expects. usage: gallery.py PROGRAM [FOLDER]

PROGRAM is crates/girzohal/out/girzohal after `rt run` there. Each output of examples/outputs is drawn with the sources beside it and
the tool that its name begins with, and each log of examples/logs; read the changes in tools/quick before you commit them. The page
shows a tool and a log, and for each of six tools pictures in terminals of 80 and 120 columns, with what the tool printed on the left,
and what is drawn on the right (docs/gallery-*.svg). With FOLDER only these pictures are made, in FOLDER."""
import os
import re
import subprocess
import sys

sys.dont_write_bytecode = True
import picture

TOP = os.path.dirname(os.path.dirname(os.path.dirname(os.path.abspath(__file__))))
OUTPUTS, LOGS = os.path.join(TOP, "examples", "outputs"), os.path.join(TOP, "examples", "logs")
TOOLS = ("clang", "gcc", "rustc", "flake8", "shellcheck", "pylint", "mypy", "tsc")
SHOWN = ("clang",)
BESIDE = ("rustc-color", "gcc-color", "clang-color", "javac", "mypy-pretty-color", "tsc-color")
WIDTHS = (80, 120)
PRINTED, MOST = 12, 4
HEAD = """# Gallery

What real tools printed for the sources in `examples/outputs/src`, and what `girzohal` draws of it. `tools/pages/gallery.py` makes this page.
"""

DIFFERENCES = """What differs from the tools' own drawings:

- Labels' colors go by their order: none is red because it is the error's own. Of two boxes the first label's comes first.
- A mark within a range (`~~~^~~`) is the range alone, and the place its start. gcc's columns become characters.
- Marks that overlap are side by side: an insertion in one (`──▲`) is right of its place. Replacements are insertions (`help: %d`).
- Notes that are labels, and second helps, have no word; the level is a sign; what a suggestion adds isn't green.
- What tsc draws, and paths of gcc's analyzer, stay text. mypy's wrapped messages end at their first line."""


class Gallery:
    def __init__(self, program):
        self.program, self.page = program, HEAD

    def run(self, folder, *words):
        """What is written, and what goes to the error output."""
        said = subprocess.run([self.program, *words], capture_output=True, cwd=os.path.join(folder, "src"), timeout=60)
        return said.stdout.decode(), said.stderr.decode()

    def text(self, folder, *words):
        return self.run(folder, "--color", "never", *words)[0]

    def say(self, text):
        self.page += "\n" + text + "\n"

    def block(self, text):
        self.say("```text\n" + text.rstrip("\n") + "\n```")

    def picture(self, folder, name, text):
        with open(os.path.join(folder, f"{name}.svg"), "w", encoding="utf-8") as file:
            file.write(text)

    def beside(self, folder):
        """Pictures of what tools printed and what is drawn, in terminals of each width; they give the file's and the tool's name."""
        for name in BESIDE:
            tool = name.split("-")[0]
            for width in WIDTHS:
                drawn = self.run(OUTPUTS, "--color", "always", "--width", str(width), *tool_words(name), f"../{name}.txt")[0]
                self.picture(folder, f"gallery-{tool}-{width}", picture.beside([read(OUTPUTS, f"{name}.txt"), drawn], width))
            yield name, tool

    # ---- the page

    def outputs(self):
        for tool in SHOWN:
            name = f"{tool}.txt"
            lines = read(OUTPUTS, name).rstrip("\n").split("\n")
            self.say(f"## {tool}")
            self.say("It printed:" if len(lines) <= PRINTED else f"It printed (the first {PRINTED} lines of {len(lines)}):")
            self.block("\n".join(lines[:PRINTED]))
            words = [*tool_words(name), f"../{name}"]
            self.say(f"{called(words)} draws:")
            self.block(self.text(OUTPUTS, *words))

    def colors(self):
        self.say(f"## In colors\n\nWhat the tool printed, and what `girzohal --tool NAME` draws of it, in terminals with {WIDTHS[0]} and {WIDTHS[1]} columns.")
        for _, tool in self.beside(os.path.join(TOP, "docs")):
            self.say("\n".join(f"![{tool}-{width}](gallery-{tool}-{width}.svg)" for width in WIDTHS))
        self.say(DIFFERENCES)

    def log(self):
        self.say("## A log\n\nA SARIF log whose findings have several labels:")
        drawn = self.run(LOGS, "--color", "always", "--max-findings", str(MOST), "../related.sarif")[0]
        self.picture(os.path.join(TOP, "docs"), "gallery-log", picture.single(drawn))
        self.say("![labels of a log in colors](gallery-log.svg)")

    def pages(self):
        """Those that page_pictures.py made."""
        made = names(os.path.join(TOP, "docs"), ".png")
        if made:
            self.say("## As pages\n\n`--to html` in light and dark, and `--to markdown` and `--to summary` (`tools/pages/page_pictures.py`):")
            self.say("\n".join(f"![{name[:-4]}]({name})" for name in [*made, *(it for it in ("summary.svg",) if os.path.isfile(os.path.join(TOP, "docs", it)))]))

    # ---- what the cases expect

    def expected(self):
        for name in names(OUTPUTS, ".txt"):
            if "-color" not in name:
                keep("outputs", name, self.text(OUTPUTS, *tool_words(name), f"../{name}"))
        for width in ("60", "200"):
            keep("outputs", f"rustc-short.{width}.txt", self.text(OUTPUTS, "--tool", "rustc", "--width", width, "../rustc-short.txt"))
        refused = ""
        for name in names(LOGS, ".sarif"):
            if name == "rules.sarif":  # fifteen findings of one kind
                continue
            drawn, told = self.run(LOGS, "--color", "never", "--from", "sarif", "--max-findings", str(MOST), f"../{name}")
            if told.startswith("girzohal: "):
                refused += f"{name[:-6]}\t{told.strip()}\n"
            else:
                keep("logs", f"{name[:-6]}.txt", drawn)
        keep("logs", "refused.tsv", refused)

    def write(self):
        docs = os.path.join(TOP, "docs")
        for name in names(docs, ".svg"):
            if name.startswith("gallery-"):
                os.remove(os.path.join(docs, name))
        for part in (self.expected, self.outputs, self.colors, self.log, self.pages):
            part()
        with open(os.path.join(TOP, "docs", "GALLERY.md"), "w", encoding="utf-8") as file:
            file.write(self.page)


def keep(folder, name, text):
    with open(os.path.join(TOP, "tools", "quick", folder, name), "w", encoding="utf-8") as file:
        file.write(text)


def names(folder, ending):
    return sorted(it for it in os.listdir(folder) if it.endswith(ending))


def read(folder, name):
    with open(os.path.join(folder, name), encoding="utf-8") as file:
        return file.read()


def tool_words(name):
    """`--tool` and the name of the tool that a file's name begins with, where it is one that is known."""
    tool = re.split("[-.]", name)[0]
    return ["--tool", tool] if tool in TOOLS else []


def called(words):
    return "`girzohal " + " ".join(words) + "`"


if __name__ == "__main__":
    if len(sys.argv) not in (2, 3):
        sys.exit(__doc__)
    gallery = Gallery(os.path.abspath(sys.argv[1]))
    if sys.argv[2:]:
        list(gallery.beside(sys.argv[2]))
    else:
        gallery.write()
