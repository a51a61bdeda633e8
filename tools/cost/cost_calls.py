#!/usr/bin/env python3
"""What single calls of the libraries cost, in instructions, where the programs make them. It needs Python and valgrind.

usage: cost_calls.py logs GIRZOHAL REPORT     what a SARIF log of 10,000 results on one file of 50,000 rows takes, with the file in the log,
                                              next to the same reports as a document
       cost_calls.py places GIRZOHAL_LSP      a text of 30,000 rows in an editor: places of findings, and changes of one character
       cost_calls.py small ARCHIVE            one report on two rows, drawn 1,000 times from C (bindings/out/llvm/libgirzohal.a)

The programs are crates/NAME/out/NAME, as `rt run` there or the gate leaves them; the archive is that of `sh bindings/test.sh`. They run
under callgrind, which counts the same each time. Printed is for each function how often it was called, and what a call took with all that
it calls; a function that the compiler put into its callers has no count of its own, which is said."""
import json
import os
import random
import re
import subprocess
import sys
import tempfile

sys.dont_write_bytecode = True
from cost_lines import NOUNS

HERE = os.path.dirname(os.path.abspath(__file__))
ROWS, RESULTS, CHANGES = 50_000, 10_000, 300


def calls(room, command, given=None):
    """Of each function that a command calls, by its crate and its name: how many calls, and what they took together."""
    counts = os.path.join(room, "counts")
    with open(given or os.devnull, "rb") as text:
        subprocess.run(["valgrind", "--tool=callgrind", "--compress-strings=no", "--compress-pos=no", "--callgrind-out-file=" + counts, *command],
                       cwd=room, stdin=text, stdout=subprocess.DEVNULL, stderr=subprocess.DEVNULL, check=False)
    found, called, count = {}, None, 0
    with open(counts, encoding="utf-8", errors="replace") as lines:
        for line in lines:
            if line.startswith("cfn="):
                # as crate::module::name, followed by `::<..>` if it is generic, and '2 if it calls itself
                path = re.sub(r"::<.*|'\d+$", "", line[4:].strip()).split("::")
                called = (path[0], path[-1])
            elif line.startswith("calls="):
                count = int(line[6:].split()[0])
            elif count:
                all_calls, all_cost = found.get(called, (0, 0))
                found[called], count = (all_calls + count, all_cost + int(line.split()[-1])), 0
    return found


def say(found, names):
    for crate, name in names:
        count, cost = found.get((crate, name), (0, 0))
        print(f"  {crate}::{name}: " + (f"{count:,} calls, {cost / count:,.0f} each, {cost / 1e6:,.1f} million in all" if count else "not seen by itself"))


# ---- logs

def write_log(path):
    """A log of results on one file, with its text."""
    chance = random.Random(5)
    text = "".join(f"    let {chance.choice(NOUNS)}_{row} = {row % 97};\n" for row in range(ROWS))
    place = {"uri": "src/long.rs", "index": 0}
    results = []
    for number in range(RESULTS):
        row, column = chance.randrange(1, ROWS + 1), chance.randrange(5, 12)
        region = {"startLine": row, "startColumn": column, "endLine": row, "endColumn": column + chance.randrange(1, 8)}
        results.append({"ruleId": "no-x", "level": "warning", "message": {"text": f"value {number} is never read"},
                        "locations": [{"physicalLocation": {"artifactLocation": place, "region": region}}]})
    run = {"tool": {"driver": {"name": "lint"}}, "artifacts": [{"location": {"uri": "src/long.rs"}, "contents": {"text": text}}], "results": results}
    with open(path, "w", encoding="utf-8") as log:
        json.dump({"version": "2.1.0", "runs": [run]}, log)


def logs(room, girzohal, report):
    log, document = os.path.join(room, "log.sarif"), os.path.join(room, "document.json")
    write_log(log)
    with open(document, "wb") as made:
        subprocess.run([girzohal, "--to", "document", log], cwd=room, stdout=made, check=False)
    print(f"a log of {RESULTS:,} results, {os.path.getsize(log):,} bytes, in girzohal:")
    read = calls(room, [girzohal, "--from", "sarif", "--to", "problems", log])
    say(read, (("sarif_log", "read_log"), ("sarif", "names_of"), ("sarif", "reports_of"), ("sarif_spans", "rows_of")))
    print(f"the same as a document, {os.path.getsize(document):,} bytes, in report:")
    say(calls(room, [report], document), (("documents", "read_document"), ("render_files", "place_labels"), ("render_files", "files_text")))


# ---- places of editors

def texts():
    """Texts of 30,000 rows, and one of a single row, in an order that is the same each time."""
    chance = random.Random(6)
    yield "equal rows of ASCII, 1 MB", "".join("x" * 34 + "\n" for _ in range(30_000))
    yield "rows of ASCII from 1 to 72 bytes", "".join("x" * chance.randrange(72) + "\n" for _ in range(30_000))
    yield "one row of ASCII, 1 MB", "x" * 1_000_000
    yield "rows of Cyrillic", "".join("ж" * 17 + "\n" for _ in range(30_000))


def session(text):
    """What a client sends that opens a text, changes it at places all over, a character each, and ends; and a log of findings there."""
    chance, rows = random.Random(7), text.split("\n")
    uri = "file:///x/a.c"

    def message(method, number=None, **params):
        body = json.dumps({"jsonrpc": "2.0", **({} if number is None else {"id": number}), "method": method, "params": params}).encode()
        return b"Content-Length: %d\r\n\r\n" % len(body) + body

    sent = [message("initialize", 1, capabilities={"general": {"positionEncodings": ["utf-16"]}}),
            message("textDocument/didOpen", textDocument={"uri": uri, "version": 0, "text": text})]
    log = []
    for version in range(1, CHANGES + 1):
        row = chance.randrange(len(rows))
        place = {"line": row, "character": chance.randrange(len(rows[row]) + 1)}
        log.append(f"a.c:{chance.randrange(len(rows)) + 1}:{chance.randrange(20) + 1}: error: here\n")
        change = {"range": {"start": place, "end": place}, "text": "y"}
        sent.append(message("textDocument/didChange", textDocument={"uri": uri, "version": version}, contentChanges=[change]))
        rows[row] += "y"
    return b"".join([*sent, message("shutdown", 2), message("exit")]), "".join(log)


def places(room, program):
    for name, text in texts():
        sent, log = session(text)
        given, path = os.path.join(room, "sent"), os.path.join(room, "lines.log")
        with open(given, "wb") as file:
            file.write(sent)
        with open(path, "w", encoding="utf-8") as file:
            file.write(log)
        print(f"{name}, {CHANGES} changes and as many findings:")
        say(calls(room, [program, path], given), (("text_places", "place_of"), ("text_places", "client_place_of"), ("text_places", "offset_of"),
            ("text_places", "nearest_counted"), ("text_places", "nearest_range_counted"), ("text_places", "replace_counted"), ("client_text", "change")))


# ---- small lists

def small(room, archive):
    """The example of bindings/c, drawn again and again."""
    with open(os.path.join(HERE, "..", "..", "bindings", "c", "arrays.c"), encoding="utf-8") as file:
        source = file.read()
    draws = "uint32_t status = girzohal_draw("
    again = source.replace(draws, "uint32_t status = 0;\n    for (int turn = 0; turn < 1000; turn++) status = girzohal_draw(")
    if again == source:
        sys.exit("cost_calls.py: bindings/c/arrays.c has no call as it is looked for here")
    with open(os.path.join(room, "small.c"), "w", encoding="utf-8") as file:
        file.write(again)
    program = os.path.join(room, "small")
    subprocess.run(["cc", "-O2", "-I" + os.path.join(HERE, "..", "..", "bindings", "c"), "-o", program, program + ".c", archive], check=True)
    found = calls(room, [program])
    count, cost = next((it for (_, name), it in found.items() if name == "girzohal_draw"), (0, 0))
    print(f"one report with a label on two rows, from C: {count:,} calls of girzohal_draw, {cost / max(count, 1):,.0f} instructions each")


def main(words):
    kinds = {"logs": (logs, 2), "places": (places, 1), "small": (small, 1)}
    kind, paths = words[0] if words else "", [os.path.abspath(it) for it in words[1:]]
    if kind not in kinds or len(paths) != kinds[kind][1]:
        sys.exit(__doc__)
    with tempfile.TemporaryDirectory() as room:
        kinds[kind][0](room, *paths)


if __name__ == "__main__":
    main(sys.argv[1:])
