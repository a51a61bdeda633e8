#!/usr/bin/env python3
"""What reading ESLint's JSON costs beside reading the same findings as a SARIF log, in instructions. It needs Python and valgrind.

usage: cost_values.py PROGRAM [FINDINGS]     (crates/girzohal/out/girzohal after `rt run` there; 10,000 findings by default)

Each ten findings are in a file of 2 kB, the same each time. Both are written as lines of problems, and drawn without colors; a line
tells what the JSON takes of what the log takes. The last line is `N passed, M failed`: the JSON takes at most 1.5 times as much. Then
the JSON is counted as ESLint prints it, with the text of each file in it."""
import json
import os
import random
import re
import subprocess
import sys
import tempfile

MOST = 1.5
WRITTEN = {"problems": ("--to", "problems"), "drawn": ("--color", "never", "--width", "80")}
RULES = ("no-unused-vars", "eqeqeq", "no-undef", "prefer-const")


def write_inputs(folder, count):
    """The JSON, the same with the files' texts, the log, and the files, below a folder."""
    chance, files, results = random.Random(3), [], []
    os.mkdir(os.path.join(folder, "src"))
    for number in range((count + 9) // 10):
        name = f"src/file_{number:04}.js"
        text = "".join(f"    const value_{row} = compute({row}, other_{row % 7}); // row\n" for row in range(40))
        with open(os.path.join(folder, name), "w", encoding="utf-8") as source:
            source.write(text)
        messages = []
        for found in range(min(10, count - 10 * number)):
            row, column, length, rule = chance.randrange(1, 41), chance.randrange(5, 20), chance.randrange(1, 8), chance.choice(RULES)
            message, severity = f"'value_{found}' is assigned a value but never used.", chance.choice((1, 2))
            messages.append({"ruleId": rule, "severity": severity, "message": message, "line": row, "column": column, "nodeType": "Identifier", "messageId": "unusedVar",
                             "endLine": row, "endColumn": column + length})
            region = {"startLine": row, "startColumn": column, "endLine": row, "endColumn": column + length}
            results.append({"level": ("warning", "error")[severity - 1], "message": {"text": message}, "ruleId": rule, "ruleIndex": RULES.index(rule),
                            "locations": [{"physicalLocation": {"artifactLocation": {"uri": name, "index": number}, "region": region}}]})
        files.append({"filePath": name, "messages": messages, "errorCount": len(messages), "warningCount": 0, "fixableErrorCount": 0, "fixableWarningCount": 0})
    rules = [{"id": rule, "helpUri": f"https://eslint.org/docs/rules/{rule}"} for rule in RULES]
    write(folder, "log.sarif", {"version": "2.1.0", "runs": [{"tool": {"driver": {"name": "ESLint", "rules": rules}}, "results": results, "columnKind": "utf16CodeUnits"}]})
    write(folder, "eslint.json", files)
    for it in files:
        with open(os.path.join(folder, it["filePath"]), encoding="utf-8") as source:
            it["source"] = source.read()
    write(folder, "whole.json", files)


def write(folder, name, value):
    with open(os.path.join(folder, name), "w", encoding="utf-8") as file:
        json.dump(value, file, separators=(",", ":"))


def count(folder, program, name, words):
    """The instructions of a run over a file, and how many findings it wrote."""
    command = [program, "--fail-on", "never", *words, name]
    ran = subprocess.run(["valgrind", "--tool=callgrind", "--callgrind-out-file=/dev/null", *command], cwd=folder, capture_output=True, check=True)
    return int(re.search(rb"Collected : (\d+)", ran.stderr)[1]), ran.stdout


def main():
    if len(sys.argv) not in (2, 3):
        sys.exit(__doc__)
    program, findings, passed, failed = os.path.abspath(sys.argv[1]), int((sys.argv[2:] or ["10000"])[0]), 0, 0
    with tempfile.TemporaryDirectory() as folder:
        write_inputs(folder, findings)
        for form, words in WRITTEN.items():
            log, wanted = count(folder, program, "log.sarif", words)
            own, said = count(folder, program, "eslint.json", words)
            whole, _ = count(folder, program, "whole.json", words)
            is_same = said.count(b"\n") == wanted.count(b"\n") if form == "problems" else len(said) == len(wanted)
            is_right = own <= MOST * log and is_same
            print(f"{findings:,} findings, {form}: the log {log / 1e6:,.1f} million instructions, the JSON {own / 1e6:,.1f} ({own / log:.2f}), with texts {whole / 1e6:,.1f} ({whole / log:.2f})"
                  + ("" if is_same else "; what is written differs"))
            passed, failed = passed + is_right, failed + (not is_right)
    print(f"{passed} passed, {failed} failed")
    return int(failed > 0)


if __name__ == "__main__":
    sys.exit(main())
