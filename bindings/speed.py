#!/usr/bin/env python3
"""What a call costs besides the drawing: instructions, by valgrind.

usage: speed.py [DOCUMENT..]     (many multi wide unicode deep big; all if none is named)

It needs the archive of `sh bindings/test.sh` (out/llvm/libgirzohal.a), the program `report` that the gate built
(crates/report/out/report), cc, cargo and valgrind. The documents are those of tools/cost/cost.py, with labels by bytes. For each: what
`files_text` takes in the program, what `girzohal_draw` takes, and what `draw` of the Rust crate takes, with the ratios of both to the
first; `again` is a second draw from the same sources. All have to draw the same.

glibc copies long texts by `rep movsb`, one instruction, of which valgrind counts each byte: so it is made to copy by vectors."""
import json
import os
import re
import struct
import subprocess
import sys
import tempfile

HERE = os.path.dirname(os.path.abspath(__file__))
sys.path[:0] = [HERE, os.path.join(HERE, "..", "tools")]
sys.dont_write_bytecode = True
import cost as documents  # noqa: E402
from examples import SEVERITIES  # noqa: E402

NONE = 2**64 - 1
REPORT = os.path.join(HERE, "..", "crates", "report", "out", "report")
BY_VECTORS = "glibc.cpu.x86_rep_movsb_threshold=0x7fffffffffffffff:glibc.cpu.x86_rep_stosb_threshold=0x7fffffffffffffff"


def arrays(document):
    """The document, with labels by bytes, as the file that both programs read."""
    texts, size, said, labels = [], 0, [], []

    def put(text):
        nonlocal size
        if text is None:
            return (NONE, NONE)
        texts.append(text.encode())
        start, size = size, size + len(texts[-1])
        return (start, size)

    files = [struct.pack("<4Q", *put(each["name"]), *put(each["source"])) for each in document["files"]]
    for report in document["reports"]:
        first = len(labels)
        for label in report.get("labels", []):
            labels.append(struct.pack("<2I2QI4x", *label["bytes"], *put(label.get("text")), label.get("primary", False)))
        parts = [put(report.get(key)) for key in ("message", "scope", "number", "help", "note", "url")]
        severity = SEVERITIES.index(report.get("severity", "error"))
        said.append(struct.pack("<2I14Q", report["file"], severity, *sum(parts, ()), first, len(labels) - first))
    whole = b"".join(texts)
    return b"".join([struct.pack("<4Q", len(whole), len(files), len(said), len(labels)), whole, *files, *said, *labels])


def by_bytes(document):
    """The document with labels by bytes."""
    lines = [each["source"].split("\n") for each in document["files"]]
    before = [[0] for _ in lines]
    for each, sums in zip(lines, before):
        for line in each:
            sums.append(sums[-1] + len(line.encode()) + 1)

    def offset(file, place):
        row, column = place
        return before[file][row - 1] + len(lines[file][row - 1][: column - 1].encode())

    def moved(file, label):
        kept = {key: label[key] for key in label if key not in ("start", "end")}
        return {**kept, "bytes": [offset(file, label["start"]), offset(file, label["end"])]}

    reports = [{**it, "labels": [moved(it["file"], label) for label in it.get("labels", [])]} for it in document["reports"]]
    return {**document, "version": 2, "reports": reports}


def counts(program, given, drawing, names):
    """What each of the functions takes with all that it calls: of a program that reads arrays and writes a drawing."""
    kept = drawing + ".counts"
    subprocess.run(["valgrind", "--tool=callgrind", "--callgrind-out-file=" + kept, program, given, drawing],
                   check=True, stderr=subprocess.DEVNULL, env={**os.environ, "GLIBC_TUNABLES": BY_VECTORS})
    said = subprocess.run(["callgrind_annotate", "--inclusive=yes", "--threshold=100", kept], capture_output=True, text=True).stdout
    found = []
    for name in names:
        of = re.findall(rf"^\s*([\d,]+) .*?:(?:\S*::)?{name}(?:::h[0-9a-f]+)?(?:'\d+)?(?:\s|$)", said, re.M)
        found.append(max((int(it.replace(",", "")) for it in of), default=None))
    return found


def files_text(document, room):
    """What `files_text` takes in the program `report`, and what it draws of the document."""
    kept = os.path.join(room, "report.counts")
    with open(document, "rb") as given:
        said = subprocess.run(["valgrind", "--tool=callgrind", "--callgrind-out-file=" + kept, REPORT], stdin=given, check=True,
                              capture_output=True, env={**os.environ, "GLIBC_TUNABLES": BY_VECTORS})
    return documents.most_of(kept, documents.DRAWING), said.stdout


def main(wanted):
    with tempfile.TemporaryDirectory() as room:
        archive, out = os.path.join(HERE, "out", "llvm"), os.path.join(HERE, "out")
        in_c = os.path.join(room, "speed")
        subprocess.run(["cc", "-O2", "-I" + os.path.join(HERE, "c"), "-o", in_c, os.path.join(HERE, "c", "tests", "speed.c"),
                        os.path.join(archive, "libgirzohal.a")], check=True)
        build = {**os.environ, "GIRZOHAL_LIB": archive, "CARGO_TARGET_DIR": os.path.join(out, "rust")}
        subprocess.run(["cargo", "build", "--offline", "--quiet", "--release", "-p", "girzohal", "--example", "speed"], check=True, env=build,
                       cwd=os.path.join(HERE, "rust"))
        in_rust = os.path.join(out, "rust", "release", "examples", "speed")
        for name in wanted or documents.MAKERS:
            given = os.path.join(room, name)
            document = by_bytes(documents.MAKERS[name]())
            with open(given, "wb") as file:
                file.write(arrays(document))
            with open(given + ".json", "w", encoding="utf-8") as file:
                json.dump(document, file, ensure_ascii=False)
            text, drawn = files_text(given + ".json", room)
            (whole,) = counts(in_c, given, given + ".c", ("girzohal_draw",))
            rust, again = counts(in_rust, given, given + ".rust", ("counted", "again"))
            with open(given + ".c", "rb") as one, open(given + ".rust", "rb") as other:
                if not one.read() == other.read() == drawn:
                    sys.exit(f"{name}: the drawings differ")
            print(f"{name:8} files_text {text:14,}   girzohal_draw {whole:14,} ({whole / text:.3f})   "
                  f"Rust {rust:14,} ({rust / text:.3f})   again {again:14,} ({again / text:.3f})", flush=True)


if __name__ == "__main__":
    main(sys.argv[1:])
