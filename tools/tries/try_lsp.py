#!/usr/bin/env python3
"""Tries the built girzohal_lsp. usage: try_lsp.py PROGRAM

PROGRAM is what `rt run` left in crates/girzohal_lsp/out. The sessions of lsp_rows.py get exactly the messages there:
what a server answers, what clients receive about a log, which arguments are wrong, which bytes are of no frame. A transcript of a
client goes in as a whole and in random parts, and the answers are compared; each error of a frame ends the program. A document that
is changed by many ranges is compared with a plain replay, by where each of its rows begins and ends: a server never shows a text
(those of crates/text_tests/src/of_client_text/transcript.rt are compared unchanged). Where Neovim is installed, its own client opens a
file and types above, in and below what a log found (tools/tries/try_lsp.lua), and what it shows is checked: over a log of this
script, and over what tools printed of the sources in examples/outputs.

The last line is `N passed, M failed`; the status is 0 where M is 0."""
import json
import os
import random
import shutil
import subprocess
import sys
import tempfile
import time

sys.dont_write_bytecode = True
import lsp_rows as rows

PROGRAM = os.path.abspath(sys.argv[1])
HERE = os.path.dirname(os.path.abspath(__file__))


def frame(value, head=None):
    body = value if isinstance(value, bytes) else json.dumps(value, ensure_ascii=False).encode()
    return (head or b"Content-Length: %d\r\n\r\n" % len(body)) + body


def messages_in(data):
    """The messages of a whole output, each after its own head."""
    out = []
    while data:
        head, data = data.split(b"\r\n\r\n", 1)
        length = int(head.split(b":")[1])
        out.append(json.loads(data[:length].decode()))
        data = data[length:]
    return out


def request(number, method, params=None):
    return {"jsonrpc": "2.0", "id": number, "method": method, "params": params or {}}


def notice(method, params=None):
    return {"jsonrpc": "2.0", "method": method, "params": params or {}}


def run(words, data):
    return subprocess.run([PROGRAM] + words, input=data, capture_output=True, timeout=60)


def check(what, holds):
    print(("ok      " if holds else "FAILED  ") + what)
    if holds:
        check.passed += 1
    else:
        check.failed += 1


check.passed = check.failed = 0


def place_of(text, offset, encoding):
    before = text[:offset]
    line = before.count("\n")
    row = before[before.rfind("\n") + 1:]
    unit = {"utf-8": len(row.encode()), "utf-16": len(row.encode("utf-16-le")) // 2, "utf-32": len(row)}[encoding]
    return {"line": line, "character": unit}


LOG = "a.c:1:5: error: one [-Wone]\na.c:2:3: warning: two\nb/c.c:1:1: note: alone\n"
URI = "file:///x%20y/a.c"


def session(folder):
    log = os.path.join(folder, "log.txt")
    open(log, "w").write(LOG)
    start = [
        frame(request(1, "textDocument/hover")),
        frame(notice("textDocument/didOpen", {"textDocument": {"uri": URI, "version": 1, "text": "early"}})),
        frame(request("a", "initialize", {"capabilities": {"general": {"positionEncodings": ["utf-7", "utf-32", "utf-8"]},
                                                            "textDocument": {"publishDiagnostics": {"relatedInformation": True}}}})),
        frame(notice("initialized")),
        frame(notice("textDocument/didOpen", {"textDocument": {"uri": URI, "version": 1, "text": "int x;\n\U0001f4a3 y\n"}})),
        frame(notice("textDocument/didChange", {"textDocument": {"uri": URI, "version": 2}, "contentChanges": [
            {"range": {"start": {"line": 0, "character": 0}, "end": {"line": 0, "character": 0}}, "text": "é"},
            {"range": {"start": {"line": 1, "character": 0}, "end": {"line": 1, "character": 1}}, "text": ""}]})),
        frame(notice("textDocument/didChange", {"textDocument": {"uri": URI, "version": 3}, "contentChanges": [
            {"text": "gone"}, {"range": {"start": {"line": 0, "character": 2}, "end": {"line": 0, "character": 1}}, "text": ""}]})),
        frame(notice("textDocument/didChange", {"textDocument": {"uri": "file:///none", "version": 3}, "contentChanges": []})),
        frame(b'{"no json'), frame(b""), frame(request(None, "x/y")),
        frame(request(7, "x/y"), b"content-type: application/vscode-jsonrpc; charset=utf-8\r\nCONTENT-LENGTH:   60\r\nX: :y\r\n\r\n"),
        frame(request(8, "initialize")),
        frame(notice("textDocument/didClose", {"textDocument": {"uri": URI}})),
        frame(request(9, "shutdown")), frame(request(10, "x")), frame(notice("exit")),
    ]
    body = json.dumps(request(7, "x/y"), ensure_ascii=False).encode()
    start[11] = frame(body, b"content-type: application/vscode-jsonrpc; charset=utf-8\r\nCONTENT-LENGTH:   %d\r\nX: :y\r\n\r\n" % len(body))
    return log, start


def try_messages(folder):
    log, start = session(folder)
    data = b"".join(start)
    whole = run(["--tool", "gcc", log], data)
    out = messages_in(whole.stdout)
    answers = [(m.get("id"), m.get("error", {}).get("code")) for m in out if "method" not in m]
    check("each request is answered once, in order", answers == [
        (1, -32002), ("a", None), (None, -32700), (None, -32700), (7, -32601), (8, -32600), (9, None), (10, -32600)])
    agreed = [m["result"] for m in out if m.get("id") == "a"][0]
    check("the first encoding that is known is agreed on", agreed["capabilities"].get("positionEncoding") == "utf-32")
    told = [m["params"] for m in out if m.get("method") == "textDocument/publishDiagnostics"]
    check("what was found is published, moves, and is closed", [len(t["diagnostics"]) for t in told] == [2, 2, 0])
    first, moved = told[0]["diagnostics"], told[1]["diagnostics"]
    check("the error is where the log says", first[0]["range"]["start"] == {"line": 0, "character": 4} and first[0]["severity"] == 1)
    check("it moved with its text", moved[0]["range"]["start"] == {"line": 0, "character": 5})
    said = [m["params"]["message"] for m in out if m.get("method") == "window/logMessage"]
    check("faulty changes are told", len(said) == 2 and "contentChanges[1]" in said[0] and "no open document" in said[1])
    check("the status is that of a session that ended well", whole.returncode == 0)
    check("without shutdown it is 1", run([log], frame(notice("exit"))).returncode == 1)
    wrong = [[], ["--tool"], ["--from", "xml", log], ["--from", "sarif", "--columns", "bytes", log], ["--from", "sarif", "--columns", "cells", log],
             ["--tool", "nonsense", log], ["--tool", "sarif", "--columns", "bytes", log]]
    check("words that are none end it with 2", all(run(words, b"").returncode == 2 for words in wrong))
    for seed in range(40):
        chance = random.Random(seed)
        child = subprocess.Popen([PROGRAM, "--tool", "gcc", log], stdin=subprocess.PIPE, stdout=subprocess.PIPE)
        at = 0
        while at < len(data):
            count = chance.choice([1, 2, 7, 60, 300])
            try:
                child.stdin.write(data[at:at + count])
                child.stdin.flush()
            except BrokenPipeError:
                break
            at += count
            time.sleep(0.0003)
        stdout, _ = child.communicate()
        if stdout != whole.stdout or child.returncode != 0:
            check(f"cutting {seed}", False)
    check("40 random cuttings give the same", True)
    for bad in [b"\n", b"Content-Length: 12a\r\n", b"X: y\r\n\r\n", b"Content-Length: 8388609\r\n\r\n", b"a:" + b"b" * 5000,
                b"Content-Length: 1\r\nContent-Length: 1\r\n\r\n", b"Content-Length: 1 \r\n\r\n", b"Content-Length 1\r\n\r\n"]:
        got = run([log], bad)
        check(f"{bad[:24]} ends it", got.returncode == 1 and got.stdout == b"")


SARIF = {"version": "2.1.0", "runs": [{"tool": {"driver": {"name": "t"}}, "results": [{"level": "error", "message": {"text": "one"}, "locations": [
    {"physicalLocation": {"artifactLocation": {"uri": "a.c"}, "region": {"startLine": 1, "startColumn": 5, "endColumn": 6}}}]}]}]}
OPENED = frame(notice("textDocument/didOpen", {"textDocument": {"uri": URI, "version": 1, "text": "int x;\nint y;\n"}}))
SAVED = frame(notice("textDocument/didSave", {"textDocument": {"uri": URI}}))
BEGUN, OVER, EXITED = frame(request(1, "initialize")), frame(request(2, "shutdown")), frame(notice("exit"))


def told_of(folder, log, words, data):
    """The messages that a client receives of this: the published findings, and what is logged."""
    path = os.path.join(folder, "told.log")
    with open(path, "wb") as out:
        out.write(log)
    got = run(words + [path], data)
    out = messages_in(got.stdout)
    published = [[(d["message"], d["range"]["start"]["line"], d["range"]["start"]["character"]) for d in m["params"]["diagnostics"]]
                 for m in out if m.get("method") == "textDocument/publishDiagnostics"]
    return published, [m["params"]["message"] for m in out if m.get("method") == "window/logMessage"]


def try_logs(folder):
    """When a log is looked up, and what its bytes are read as."""
    lines = b"a.c:1:5: error: one\n"
    one = [("one", 0, 4)]
    whole = BEGUN + OPENED + OVER
    check("a file that is opened and saved is looked up twice", told_of(folder, lines, [], BEGUN + OPENED + SAVED + OVER + EXITED) == ([one, one], []))
    check("behind shutdown nothing is published", told_of(folder, lines, [], whole + SAVED + OPENED + EXITED) == ([one], []))
    broken = b'{"version": ]}\n'
    check("before initialize nothing is told, of a broken log either", told_of(folder, broken, [], OPENED + SAVED + EXITED) == ([], []))
    sarif = json.dumps(SARIF).encode()
    mark = b"\xef\xbb\xbf"
    for words in ([], ["--from", "sarif"], ["--tool", "sarif"]):
        check(f"a SARIF log behind a byte order mark is read {words}", told_of(folder, mark + sarif, words, whole + EXITED) == ([one], []))
    check("lines behind a byte order mark are read", told_of(folder, mark + lines, [], whole + EXITED) == ([one], []))
    published, said = told_of(folder, b"warning: a\nwarning: b\n" + broken, ["--from", "sarif"], whole + EXITED)
    check("a broken log behind two lines is told with its own line", published == [[]] and len(said) == 1 and " no JSON at 3:" in said[0])
    published, said = told_of(folder, b"[{}]", [], whole + EXITED)
    check("JSON that begins with a list is told", published == [[]] and len(said) == 1 and "JSON of no known form" in said[0])


def heard(child, count):
    """The next messages that the program sends, of which so many come."""
    out = []
    for _ in range(count):
        head = child.stdout.readline()
        child.stdout.readline()
        out.append(json.loads(child.stdout.read(int(head.split(b":")[1]))))
    return [m["params"].get("message") or [d["message"] for d in m["params"].get("diagnostics", [])] if "params" in m else m["id"] for m in out]


def try_changing_logs(folder):
    """A log that changes while it is served: of what comes at once each message sees what the log has by then, in order."""
    path = os.path.join(folder, "changing.log")
    other = frame(notice("textDocument/didOpen", {"textDocument": {"uri": "file:///x/b.c", "version": 1, "text": "int x;\n"}}))
    cut = frame(notice("textDocument/didChange", {"textDocument": {"uri": URI, "version": 2}, "contentChanges": [{"text": ""}]}))
    steps = [
        ("a log that is missing is told", None, BEGUN + OPENED, [1, path + ": it can't be read", []]),
        ("lines that came since are shown", b"a.c:1:5: error: one\n", SAVED, [["one"]]),
        ("the same are shown again", b"a.c:1:5: error: one\n", SAVED + SAVED, [["one"], ["one"]]),
        ("others are shown to all that comes at once", b"a.c:2:1: note: two\nb.c:1:1: note: three\n", SAVED + other + SAVED + OPENED,
         [["two"], ["three"], ["two"], ["three"], ["two"]]),
        ("a SARIF log is shown behind lines", json.dumps(SARIF).encode(), SAVED + cut, [["one"], [], []]),
        ("and shown again", json.dumps(SARIF).encode(), SAVED + OPENED, [["one"], [], ["one"]]),
        ("a broken log is told", b"[{}]", OPENED, [path + ": JSON of no known form; SARIF logs and lines are read", []]),
        ("and one that is gone", None, OPENED + OVER, [path + ": it can't be read", [], 2]),
    ]
    child = subprocess.Popen([PROGRAM, path], stdin=subprocess.PIPE, stdout=subprocess.PIPE)
    for name, log, sent, wanted in steps:
        if log is not None:
            with open(path, "wb") as out:
                out.write(log)
        elif os.path.exists(path):
            os.remove(path)
        child.stdin.write(sent)
        child.stdin.flush()
        got = heard(child, len(wanted))
        check(name, got == wanted)
        if got != wanted:
            print("        ", got, wanted)
    child.communicate(EXITED, timeout=60)
    check("the session ends well", child.returncode == 0)


def said(bodies):
    """Bodies as frames, in order."""
    return b"".join(frame(body.encode()) for body in bodies)


def talk(folder, log, words, bodies):
    """What the program says to these bodies, over this log."""
    path = os.path.join(folder, "log")
    if log is not None:
        with open(path, "wb") as out:
            out.write(log)
    elif os.path.exists(path):
        os.remove(path)
    got = subprocess.run([PROGRAM] + words, input=said(bodies), capture_output=True, timeout=60, cwd=folder)
    return got.stdout, got.stderr, got.returncode


def try_sessions(folder):
    """What is answered and told, message by message."""
    sessions = rows.SERVED + rows.TOLD + [rows.ON_THE_FILE] + rows.IN_ANOTHER_FILE + [rows.named_session(*row) for row in rows.NAMES]
    sessions += [rows.log_session(number, *row) for number, row in enumerate(rows.LOGS)]
    for name, log, words, bodies, wanted in sessions:
        got = talk(folder, log, words + ["log"], bodies + [rows.END, rows.EXIT])
        check(name, got == (said(wanted + [rows.ENDED]), b"", 0))
    for capabilities, key, encoding in rows.ENCODINGS:
        stdout, _, _ = talk(folder, b"", ["log"], [rows.begin(capabilities)])
        check(f"{encoding} is agreed on: {capabilities}", f'"{key}":"{encoding}"'.encode() in stdout)
    got = talk(folder, b"", ["log"], [body for body, _ in rows.LATE])
    check("requests are answered", got == (said([answer for _, answer in rows.LATE if answer]), b"", 0))
    for name, bodies, wanted, status in rows.LOOKED_UP:
        check(name, talk(folder, None, rows.NONE_THERE + ["log"], bodies) == (said(wanted), b"", status))


def try_words(folder):
    """Which arguments are wrong, and the form that arguments set, by what is shown of a log of lines and of a SARIF log."""
    def refused(why):
        return b"", f"girzohal_lsp: {why}\n{rows.USAGE}".encode(), 2

    for form, unit, why in rows.COUNTED:
        got = talk(folder, b"", ["log", "--columns", unit, "--from", form], [rows.BEGIN, rows.END, rows.EXIT])
        check(f"words: {form} counts {unit}", got == (refused(why) if why else (said([rows.BEGUN, rows.ENDED]), b"", 0)))
    for text, why in rows.WRONG_WORDS:
        got = talk(folder, b"", text.split(" "), [rows.BEGIN, rows.END, rows.EXIT])
        check(f"wrong words: {text!r}", got == refused(why))
    for word, shown in (("--help", rows.USAGE), ("-h", rows.USAGE), ("--version", rows.VERSION), ("-V", rows.VERSION)):
        check(f"{word} is answered", talk(folder, b"", ["--wrong", word], []) == (shown.encode(), b"", 0))
    for text, form in rows.WORDS:
        got = [talk(folder, rows.named(spelling, "a.c"), text.split(" "), [rows.BEGIN, rows.IN_C, rows.END, rows.EXIT])
               for spelling in ("lines", "sarif")]
        wanted = [(said([rows.BEGUN] + told + [rows.ENDED]), b"", 0) for told in rows.FORMS[form]]
        check(f"words: {text!r} say {form}", got == wanted)


def ends_at_once(data):
    """Whether the program ends with these bytes, though its input doesn't."""
    child = subprocess.Popen([PROGRAM, "log"], stdin=subprocess.PIPE, stdout=subprocess.PIPE)
    try:
        child.stdin.write(data)
        child.stdin.flush()
        return child.wait(timeout=60) == 1 and child.stdout.read() == b""
    except subprocess.TimeoutExpired:
        child.kill()
        return False
    finally:
        child.communicate()


def try_frames():
    """Bodies come with their last byte, and the first byte that can be of no frame ends the program."""
    end, early = said([rows.END]), said([rows.EARLY_END])
    for text, wanted in rows.BODIES:
        data = text.encode()
        check(f"a body comes with its last byte: {text[:44]!r}", run(["log"], data[:-1]).stdout == b"")
        check("and comes whole", run(["log"], data + end).stdout == said(wanted) + early)
    for text, place, rest in rows.FAULTS:
        data = text.encode()
        if rest is not None:
            check(f"{place} bytes begin a frame: {text!r}", run(["log"], data[:place] + rest.encode() + end).stdout == early)
        check(f"the byte behind {place} ends it: {text[:44]!r}", ends_at_once(data[:place + 1]))
    chunks = run(["log"], "".join(rows.CHUNKS).encode())
    check("chunks are read as their frames", (chunks.stdout, chunks.returncode) == (said([rows.NO_JSON]), 1))
    check("lengths count bytes", run(["log"], said([rows.WIDE[0]])).stdout == said([rows.WIDE[1]]))


def between(text, offset):
    """The offset, or the one before it if it is within a CRLF."""
    return offset - 1 if text[offset - 1:offset + 1] == "\r\n" else offset


def try_replay(folder, seed, encoding):
    """Many notifications with several ranges each, one of them faulty, against a plain replay; at the end the document is closed."""
    chance = random.Random(seed)
    log = os.path.join(folder, "empty.txt")
    open(log, "w").write("".join(f"a.c:{row}: error: row\n" for row in range(1, 200)))
    text = "".join(chance.choice(["a", "é", "\U0001f600", "b\r\n", "\n", " x"]) for _ in range(120))
    wanted = text
    data = frame(request(1, "initialize", {"capabilities": {"general": {"positionEncodings": [encoding]}}}))
    data += frame(notice("textDocument/didOpen", {"textDocument": {"uri": URI, "version": 0, "text": text}}))
    faulty = chance.randrange(40)
    for number in range(40):
        changes, now = [], wanted
        for _ in range(chance.randrange(1, 5)):
            start = between(now, chance.randrange(len(now) + 1))
            end = between(now, min(len(now), start + chance.randrange(0, 6)))
            piece = "".join(chance.choice(["z", "ß", "\U0001f4a3", "\n", "\r\n", "q"]) for _ in range(chance.randrange(0, 6)))
            changes.append({"range": {"start": place_of(now, start, encoding), "end": place_of(now, end, encoding)}, "text": piece})
            now = now[:start] + piece + now[end:]
        if number == faulty:
            changes.append({"range": {"start": {"line": 1, "character": 0}, "end": {"line": 0, "character": 0}}, "text": ""})
        else:
            wanted = now
        data += frame(notice("textDocument/didChange", {"textDocument": {"uri": URI, "version": number + 1}, "contentChanges": changes}))
    # the log has a finding on each row: read again, it shows where each row begins and ends, without blanks, in the client's units
    data += frame(notice("textDocument/didSave", {"textDocument": {"uri": URI}}))
    data += frame(notice("textDocument/didClose", {"textDocument": {"uri": URI}}))
    data += frame(request(2, "shutdown")) + frame(notice("exit"))
    out = messages_in(run(["--tool", "gcc", log], data).stdout)
    said = [m for m in out if m.get("method") == "window/logMessage"]
    *told, closed = [m["params"] for m in out if m.get("method") == "textDocument/publishDiagnostics"]
    rows = [row.rstrip("\r") for row in wanted.split("\n")]
    shown = [d["range"] for d in told[-1]["diagnostics"]][:len(rows)]
    meant = [{"start": {"line": n, "character": len(row) - len(row.lstrip(" "))},
              "end": {"line": n, "character": place_of(row.rstrip(" "), len(row.rstrip(" ")), encoding)["character"]}}
             for n, row in enumerate(rows)]
    same = [(a, b) for a, b, row in zip(shown, meant, rows) if a != b and row.strip(" ")]
    if same:
        print(seed, encoding, same[:2])
    ends = closed == {"uri": URI, "diagnostics": []} and told[-1]["version"] == (40 if faulty != 39 else 39)
    return not same and ends and len(said) == 1 and len(told) == 41


# the steps of tools/tries/try_lsp.lua: before the mark is typed over, while it covers what was typed, and after
BEFORE = ["a line above", "past ASCII in front", "typed above", "joined and parted", "line above deleted"]
TYPED = ["in the mark", "below", "undone", "mark redone"]
STEPS = ["opened"] + BEFORE + TYPED[:3] + ["mark undone", "mark redone", "emptied", "all emptied", "all undone", "saved"]


def looks_of(folder, words, file, units):
    environment = dict(os.environ, LSP_PROGRAM=PROGRAM, LSP_WORDS="\n".join(words), LSP_FILE=file, LSP_UNITS=units)
    got = subprocess.run(["nvim", "--headless", "--clean", "-c", "luafile " + os.path.join(HERE, "try_lsp.lua")],
                         env=environment, cwd=folder, capture_output=True, timeout=120)
    looks = {}
    for line in (got.stdout + got.stderr).decode(errors="replace").replace("\r", "").split("\n"):
        if " | {" in line:
            name, value = line.split(" | ", 1)
            looks[name.strip()] = json.loads(value)
    return looks


def covered(look):
    """What the shown findings cover: the first line of each message, and a text."""
    out = []
    for start, column, end, last, message, _ in look["shown"]:
        rows = [row.encode() for row in look["text"][start:end + 1]] or [b""]
        rows[-1] = rows[-1][:last]
        rows[0] = rows[0][column:]
        out.append((message.split("\n")[0], b"\n".join(rows).decode(errors="replace")))
    return out


def own_logs(folder, end):
    """A source and a log of this script: the arguments, and what the findings cover."""
    text = "int main(void) {\n    int total = 0; /* \u00e9 */ int rest;\n    return totl;\n}\n"
    with open(os.path.join(folder, "own.c"), "w", encoding="utf-8", newline=end) as out:
        out.write(text)
    with open(os.path.join(folder, "own.txt"), "w", encoding="utf-8") as out:
        out.write("own.c:3:12: error: 'totl' undeclared [x]\nown.c:2:9: warning: unused [y]\nown.c:2:32: warning: unused [y]\n"
                  "other.c:1:1: error: elsewhere\n")
    return ["--tool", "gcc", os.path.join(folder, "own.txt")], ["totl", "total", "rest"]


# the text in the sources where the tools say that they found something: a word, or one character that isn't part of one
COVERED = {
    "clang.txt": ["sum", "total(p, 4)"], "clang-color.txt": ["sum", "total(p, 4)"], "gcc.txt": ["%s"], "gcc-color.txt": ["%s"],
    "mypy-columns.txt": ["self.items", '"0"', "cart.totals"], "go-vet.txt": ["sum", "fmt"], "javac.txt": ["", "s"],
    "cppcheck.txt": ["p", "-", "/", "s", "s"], "rustc.txt": ["sum as String", "sum as String", "xs", "moved"],
    "shellcheck.txt": ["$", "*", "$", "cd", "$", "$", "$", "="], "yamllint.txt": ["a", " ", "a", "2", " "],
    "flake8.txt": ["import", "import", ",", "summe", "def", "-", "\t", "\t", "return"],
}


def real_logs(folder, examples):
    """Logs that tools left, each with its source, and the tool where something is known of it."""
    for source in ("cart.c", "cart.py", "cart.sh", "cart.yaml", "cart.go", "Cart.java", "cart.rs"):
        shutil.copyfile(os.path.join(examples, "outputs", "src", source), os.path.join(folder, source))
    sarif = os.path.join(folder, "clang_16.sarif")
    with open(os.path.join(examples, "logs", "clang_16.sarif"), encoding="utf-8") as log, open(sarif, "w", encoding="utf-8") as out:
        out.write(log.read().replace("file:///project/", ""))
    outputs = os.path.join(examples, "outputs")
    tools = [("clang", "clang.txt", "cart.c"), ("clang", "clang-color.txt", "cart.c"), ("gcc", "gcc.txt", "cart.c"),
             ("gcc", "gcc-color.txt", "cart.c"), ("flake8", "flake8.txt", "cart.py"), ("mypy", "mypy-columns.txt", "cart.py"),
             ("shellcheck", "shellcheck.txt", "cart.sh"), (None, "yamllint.txt", "cart.yaml"), (None, "go-vet.txt", "cart.go"),
             (None, "javac.txt", "Cart.java"), (None, "cppcheck.txt", "cart.c"), ("rustc", "rustc.txt", "cart.rs")]
    return [((["--tool", tool] if tool else []) + [os.path.join(outputs, log)], source) for tool, log, source in tools] + [([sarif], "cart.c")]


def try_neovim(folder, examples):
    for units, end in (("", "\n"), ("utf-8", "\n"), ("utf-32", "\n"), ("", "\r\n")):
        words, wanted = own_logs(folder, end)
        texts = try_looks(folder, words, "own.c", units)
        check("the findings are at the words that the log means", texts == wanted)
    found = {}
    for words, source in real_logs(folder, examples):
        found[os.path.basename(words[-1])] = try_looks(folder, words, source, "")
    for log, texts in COVERED.items():
        check(f"{log}: the findings are at the words that it means", found[log] == texts)


def try_looks(folder, words, source, units):
    """Types into a file that a log is of; gives what the findings covered when it was opened."""
    looks = looks_of(folder, words, os.path.join(folder, source), units)
    print("--", os.path.basename(words[-1]), units, {name: len(look["shown"]) for name, look in looks.items()})
    came = list(looks) == STEPS and all(look["came"] for look in looks.values())
    check("Neovim was told of each step", came)
    if not came:
        print("        ", [name for name in STEPS if name not in looks or not looks[name]["came"]])
        return []
    first = covered(looks["opened"])
    check("places count in what was agreed on", looks["opened"]["units"] == (units or "utf-16"))
    check("each change could be made", looks["saved"]["said"] == [])
    # (a change of two rows that are joined may cover what begins a row)
    places = looks["opened"]["shown"]
    inner = [number for number, place in enumerate(places) if place[1] > 0]
    typed = [number for number in inner if places[number][0] == places[number][2] and places[number][1] < places[number][3]][0]
    others = [number for number in inner if places[number][0] != places[typed][0]]
    check(f"'{BEFORE[0]}': all findings cover the same texts", covered(looks[BEFORE[0]]) == first)
    for name in BEFORE + ["mark undone"]:
        check(f"'{name}': they cover the same texts", those(looks[name], inner) == those(looks["opened"], inner))
    for name in TYPED:
        check(f"'{name}': the mark that was typed over covers what was typed", those(looks[name], [typed]) == [(first[typed][0], "X\U0001f4a3")])
        check(f"'{name}': those in other rows cover the same texts", those(looks[name], others) == those(looks["opened"], others))
    check("nothing with a range is left of an emptied file", all(text == "" for _, text in covered(looks["all emptied"])))
    check("once all is undone and saved they are as they were", looks["saved"]["shown"] == looks["opened"]["shown"])
    for what in first[:4]:
        print("        ", what)
    return [text for _, text in first]


def those(look, numbers):
    """What the findings of these numbers cover."""
    found = covered(look)
    return [found[number] if number < len(found) else None for number in numbers]


with tempfile.TemporaryDirectory() as place:
    try_sessions(place)
    try_words(place)
    try_frames()
    try_messages(place)
    try_logs(place)
    try_changing_logs(place)
    check("30 replays", all(try_replay(place, seed, ["utf-8", "utf-16", "utf-32"][seed % 3]) for seed in range(30)))
    if shutil.which("nvim"):
        try_neovim(place, os.path.join(os.path.dirname(os.path.dirname(HERE)), "examples"))
    else:
        print("skipped: Neovim's client: there is no nvim")
print(f"{check.passed} passed, {check.failed} failed")
sys.exit(1 if check.failed else 0)
