#!/usr/bin/env python3
"""What drawing a SARIF log costs beside drawing the same as a document, in instructions. It needs Python and valgrind.

usage: cost_logs.py GIRZOHAL REPORT     (the programs that `rt run` leaves in crates/girzohal/out and crates/report/out)

The log has 10,000 findings over 1,000 files of 2 MB in all, the same each time; the document is what GIRZOHAL makes of it.
Both are drawn without colors, 80 columns wide; the ratios are what the log takes of what the document takes."""
import json
import os
import random
import re
import subprocess
import sys
import tempfile

LOOK = ["--color", "never", "--width", "80"]


def write_log(folder):
    """The log and its sources, below a folder."""
    chance = random.Random(3)
    results = []
    os.mkdir(os.path.join(folder, "src"))
    for number in range(1000):
        name = f"src/file_{number:04}.rs"
        rows = [f"    let value_{row} = compute({row}, other_{row % 7}); // row\n" for row in range(40)]
        with open(os.path.join(folder, name), "w") as source:
            source.write("".join(rows))
        for found in range(10):
            row, column = chance.randrange(1, 41), chance.randrange(5, 20)
            region = {"startLine": row, "startColumn": column, "endLine": row, "endColumn": column + chance.randrange(1, 8)}
            place = {"physicalLocation": {"artifactLocation": {"uri": name}, "region": region}}
            results.append({"ruleId": "no-x", "level": "warning", "message": {"text": f"value {found} is never read"}, "locations": [place]})
    with open(os.path.join(folder, "log.sarif"), "w") as log:
        json.dump({"version": "2.1.0", "runs": [{"tool": {"driver": {"name": "lint"}}, "results": results}]}, log)


def count(folder, command, given=None):
    """The instructions of a command, in millions."""
    with open(os.path.join(folder, given or os.devnull), "rb") as data:
        run = subprocess.run(["valgrind", "--tool=callgrind", "--callgrind-out-file=/dev/null", *command], cwd=folder, stdin=data, stdout=subprocess.DEVNULL, stderr=subprocess.PIPE, text=True)
    return int(re.search(r"Collected : (\d+)", run.stderr)[1]) / 1e6


def main(girzohal, report):
    with tempfile.TemporaryDirectory() as folder:
        write_log(folder)
        with open(os.path.join(folder, "document.json"), "wb") as document:
            subprocess.run([girzohal, "--to", "document", "log.sarif"], cwd=folder, stdout=document)
        whole = count(folder, [report, *LOOK], "document.json")
        print(f"report, the document: {whole:.1f}")
        for form in ("sarif", "auto"):
            taken = count(folder, [girzohal, "--from", form, *LOOK, "log.sarif"])
            print(f"girzohal --from {form}: {taken:.1f} ({taken / whole:.2f})")


if __name__ == "__main__":
    if len(sys.argv) != 3:
        sys.exit(__doc__)
    main(os.path.abspath(sys.argv[1]), os.path.abspath(sys.argv[2]))
