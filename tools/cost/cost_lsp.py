#!/usr/bin/env python3
"""What girzohal_lsp takes for many documents over one log, in instructions. It needs Python and valgrind.

usage: cost_lsp.py PROGRAM [DOCUMENTS] [FINDINGS]     (crates/girzohal_lsp/out/girzohal_lsp after `rt run` there; 50 and 5,000 by default)

A client opens the documents, and then saves one of them, so that all are looked up again. The log is read as lines of a compiler and as
SARIF; its findings are spread over the documents, and then all on files of which none is open. Each session is counted by callgrind as a
whole; that of a client which opens nothing is counted alone."""
import json
import os
import re
import subprocess
import sys
import tempfile

ROWS = 200


def message(method, number=None, **params):
    body = json.dumps({"jsonrpc": "2.0", **({} if number is None else {"id": number}), "method": method, "params": params}).encode()
    return b"Content-Length: %d\r\n\r\n" % len(body) + body


def session(documents, saves):
    text = "int unused = 1;\n" * ROWS
    uris = [f"file:///x/src/file_{number}.c" for number in range(documents)]
    sent = [message("initialize", 1, capabilities={})]
    sent += [message("textDocument/didOpen", textDocument={"uri": uri, "version": 1, "text": text}) for uri in uris]
    sent += [message("textDocument/didSave", textDocument={"uri": uri}) for uri in uris[:saves]]
    return b"".join(sent + [message("shutdown", 2), message("exit")])


def places(folder, documents, findings):
    for number in range(findings):
        yield f"{folder}/file_{number % documents}.c", number * 7 % ROWS + 1


def lines(folder, documents, findings):
    return "".join(f"{name}:{row}:5: warning: unused variable 'unused' [-Wunused-variable]\n" for name, row in places(folder, documents, findings))


def sarif(folder, documents, findings):
    results = [{"ruleId": "no-unused", "level": "warning", "message": {"text": "'unused' is never read"}, "locations": [{"physicalLocation": {
        "artifactLocation": {"uri": name}, "region": {"startLine": row, "startColumn": 5, "endColumn": 11}}}]}
        for name, row in places(folder, documents, findings)]
    return json.dumps({"version": "2.1.0", "runs": [{"tool": {"driver": {"name": "lint", "rules": [{"id": "no-unused"}]}}, "results": results}]})


def counted(program, room, log, sent):
    path = os.path.join(room, "log")
    with open(path, "w", encoding="utf-8") as it:
        it.write(log)
    words = ["valgrind", "--tool=callgrind", "--callgrind-out-file=/dev/null", program, path]
    run = subprocess.run(words, input=sent, capture_output=True, check=True)
    return int(re.search(rb"Collected : ([0-9]+)", run.stderr)[1]) / 1e6


def main():
    if len(sys.argv) < 2:
        sys.exit(__doc__)
    program = os.path.abspath(sys.argv[1])
    documents, findings = int((sys.argv[2:3] or ["50"])[0]), int((sys.argv[3:4] or ["5000"])[0])
    with tempfile.TemporaryDirectory() as room:
        print(f"{documents} documents, {findings:,} findings, in millions of instructions:")
        for name, made in (("lines", lines), ("SARIF", sarif)):
            for folder, where in (("src", "in them"), ("other", "in other files")):
                log = made(folder, documents, findings)
                none = counted(program, room, log, session(0, 0))
                opened, saved = (counted(program, room, log, session(documents, saves)) - none for saves in (0, 1))
                print(f"  {name}, {where}: opened {opened:,.1f}; one saved {saved - opened:,.1f} more")


if __name__ == "__main__":
    main()
