#!/usr/bin/env python3
"""What drawing costs, in instructions, beside the original crate, on six documents. It needs Python and valgrind.

usage: cost.py PROGRAM [DOCUMENT..]      (many multi wide unicode deep big; all where none is named)
       cost.py --documents FOLDER        (only writes the documents)

PROGRAM is the built `report` (crates/report/out/report after `rt run`). It is run under callgrind, which counts the same each
time: the whole process, and drawing alone, which is what the drawing of the list takes less what finding the labels' places takes.
The original's counts below were taken once, of oxc_diagnostics 0.156 by rustc 1.95 with link-time optimization, on documents of the
same bytes: the better of one scanner for each report and one for all. `--documents` lets anyone check that."""
import hashlib
import json
import os
import re
import subprocess
import sys
import tempfile

# of the original: the whole process, drawing alone; and a first part of the document's SHA-256
ORIGINAL = {
    "many": (169_252_027, 43_240_409, "67bdee2e896b5751"),
    "multi": (112_493_005, 59_844_433, "98423ce9ce37c85c"),
    "wide": (183_879_109, 7_487_147, "771c4b236b5f7d21"),
    "unicode": (119_253_251, 68_692_347, "0f68e7d3287aa63c"),
    "deep": (2_385_517_733, 2_323_307_720, "6acee2a8af884608"),
    "big": (541_160_817, 16_841_293, "e8c68bc621e06cd6"),
}
DRAWING = ("files_text", "render_files", "draw_all", "draw")
PLACES = ("place_labels",)
VERBS = "load store merge split check parse write count visit sort".split()
NOUNS = "index label source report window buffer column region marker table".split()
CODE = [
    "    const {noun}{number} = {verb}{second}({third}, {number});",
    "    if ({noun} < {number}) return {verb}({second});",
    "  function {verb}{number}({noun}, {second}) {{",
    "    {noun}.{verb}({second}, \"{third}\", {number});",
    "\tlet {noun}_{number} = {second} + {verb}({number});",
    "    // {verb} the {noun} before the {second} {number}",
    "  }}",
    "    return {verb}({noun}[{number}], {second}.{third});",
]
PAST_ASCII = [
    "日本語の文字列を数える関数 {}", "cafe\u0301 re\u0301sume\u0301 nai\u0308ve {} coo\u0308perate",
    "let 変数{} = 「値」 + \"한국어 텍스트\";", "  // 👍 🎉 🚀 ok {} ✅", "for (中 of 国) {{ Ünïcödé({}); }}",
    "𝒳 = 𝒴 + {}; // math 𝛼𝛽", "print('Привет, мир {}')  # комментарий", "x̂ + ŷ = ẑ {} \u202fnarrow",
    "ｆｕｌｌ ｗｉｄｔｈ {}", "हिन्दी पाठ {} ไทย",
]


class Numbers:
    """A linear congruential generator, so that each document has the same bytes everywhere."""

    def __init__(self, seed):
        self.state = seed

    def below(self, bound):
        self.state = (self.state * 6364136223846793005 + 1442695040888963407) % 2**64
        return (self.state >> 33) % bound

    def word(self, words):
        return words[self.below(len(words))]


def code_row(numbers):
    form = numbers.word(CODE)
    parts = [numbers.word(words) for words in (VERBS, NOUNS, NOUNS, NOUNS)]
    row = form.format(verb=parts[0], noun=parts[1], second=parts[2], third=parts[3], number=numbers.below(1000))
    while len(row) < 32:
        row += f" /* {numbers.word(NOUNS)} */"
    return row


def columns(numbers, row):
    start = numbers.below(max(len(row) - 6, 1)) + 1
    return start, min(start + 1 + numbers.below(12), len(row) + 1)


def label(row, start, end, text=None, last=None, primary=False):
    made = {"start": [row, start], "end": [last or row, end]}
    if text is not None:
        made["text"] = text
    if primary:
        made["primary"] = True
    return made


def document(name, rows, reports):
    return {"files": [{"name": name, "source": "".join(row + "\n" for row in rows)}], "reports": reports}


def many():
    """5,000 reports of one label, one on each row."""
    numbers = Numbers(1)
    rows = [code_row(numbers) for _ in range(5000)]
    reports = []
    for at, row in enumerate(rows):
        start, end = columns(numbers, row)
        message = f"'{numbers.word(NOUNS)}' is assigned but never used ({at})."
        reports.append({"file": 0, "message": message, "severity": "warning" if at % 3 else "error", "scope": "eslint",
                        "number": "no-unused-vars", "labels": [label(at + 1, start, end, "assigned here" if at % 4 else None)]})
    return document("src/many.js", rows, reports)


def multi():
    """1,000 reports with help, note and three labels, one of them over four rows."""
    numbers = Numbers(4)
    rows = [code_row(numbers) for _ in range(3000)]
    reports = []
    for at in range(1000):
        row = min(at * 3, 2990)
        opened, inner = columns(numbers, rows[row]), columns(numbers, rows[row + 1])
        labels = [label(row + 1, *opened, "opened here"), label(row + 2, *inner, "inner\nstatement", primary=True),
                  label(row + 1, 3, max(len(rows[row + 3]) - 2, 2), "the whole block", last=row + 4)]
        reports.append({"file": 0, "message": f"block {at} opens here and isn't closed", "severity": ["error", "warning", "advice"][at % 3],
                        "scope": "lint", "number": f"E{at:04}",
                        "help": "Close the block before the next function begins, or move the inner statement out of it, so that readers find its end.",
                        "note": "Blocks were nested in the file before.", "labels": labels})
    return document("src/multi.js", rows, reports)


def wide():
    """One row of 200,000 characters with fifty labels."""
    numbers, row = Numbers(3), ""
    while len(row) < 200000:
        row += code_row(numbers).strip().replace("\t", " ") + ";"
    labels = []
    for at in range(50):
        start = at * 4000 + numbers.below(3900) + 1
        labels.append(label(1, start, start + 1 + numbers.below(20), f"part {at}"))
    return document("dist/wide.min.js", [row[:200000]], [{"file": 0, "message": "a long row", "labels": labels}])


def past_ascii():
    """2,000 reports of two labels in rows past ASCII."""
    numbers = Numbers(6)
    rows = [numbers.word(PAST_ASCII).format(numbers.below(1000)) for _ in range(3000)]
    reports = []
    for at in range(2000):
        row = numbers.below(2998)
        first, second = columns(numbers, rows[row]), columns(numbers, rows[row + 1])
        labels = [label(row + 1, *first, "ここ" if at % 2 else "here"), label(row + 2, *second)]
        reports.append({"file": 0, "message": f"文字 {at} is surprising", "labels": labels})
    return document("src/ユニ.js", rows, reports)


def deep():
    """One report with 500 labels over 50,000 rows."""
    numbers = Numbers(2)
    rows = [code_row(numbers) for _ in range(50000)]
    labels = []
    for at in range(500):
        row = at * 100 + numbers.below(90)
        labels.append(label(row + 1, *columns(numbers, rows[row]), f"use {at}"))
    return document("src/deep.js", rows, [{"file": 0, "message": "used in five hundred places", "labels": labels}])


def big():
    """Ten reports at the end of 20 MB."""
    numbers, rows, size = Numbers(5), [], 0
    while size < 20_000_000:
        rows.append(code_row(numbers))
        size += len(rows[-1]) + 1
    reports = []
    for at in range(10):
        row = len(rows) - 200 + at * 20
        reports.append({"file": 0, "message": f"near the end {at}", "labels": [label(row + 1, *columns(numbers, rows[row]), "here")]})
    return document("gen/big.js", rows, reports)


MAKERS = {"many": many, "multi": multi, "wide": wide, "unicode": past_ascii, "deep": deep, "big": big}


def write(folder, name):
    text = json.dumps(MAKERS[name](), ensure_ascii=False, separators=(",", ":")).encode()
    if not hashlib.sha256(text).hexdigest().startswith(ORIGINAL[name][2]):
        sys.exit(f"{name}: not the document that the original was counted on")
    path = os.path.join(folder, name + ".json")
    with open(path, "wb") as file:
        file.write(text)
    return path


def most_of(counts, names):
    """The most that a function with one of these names costs with all that it calls; none where none is named."""
    said = subprocess.run(["callgrind_annotate", "--inclusive=yes", "--threshold=100", counts], capture_output=True, text=True).stdout
    found = re.findall(r"^\s*([\d,]+) .*?\?\?\?:\S*?::(\w+)(?:\s|$)", said, re.M)
    return max((int(count.replace(",", "")) for count, name in found if name in names), default=None)


def measure(program, folder, name):
    counts = os.path.join(folder, name + ".counts")
    with open(write(folder, name), "rb") as text:
        said = subprocess.run(["valgrind", "--tool=callgrind", "--callgrind-out-file=" + counts, program], stdin=text,
                              stdout=subprocess.DEVNULL, stderr=subprocess.PIPE, text=True).stderr
    whole, drawing = int(re.search(r"Collected : (\d+)", said)[1]), most_of(counts, DRAWING)
    line = f"{name:8} whole {whole:14,} ({whole / ORIGINAL[name][0]:.3f} of the original)"
    if drawing is not None:
        drawing -= most_of(counts, PLACES) or 0
        line += f"   drawing {drawing:14,} ({drawing / ORIGINAL[name][1]:.3f})"
    print(line, flush=True)


def main(words):
    if words[:1] == ["--documents"] and len(words) == 2:
        os.makedirs(words[1], exist_ok=True)
        for name in MAKERS:
            print(write(words[1], name))
    elif words and words[0].startswith("-") is False and all(name in MAKERS for name in words[1:]):
        with tempfile.TemporaryDirectory() as folder:
            for name in words[1:] or MAKERS:
                measure(words[0], folder, name)
    else:
        sys.exit(__doc__)


if __name__ == "__main__":
    main(sys.argv[1:])
