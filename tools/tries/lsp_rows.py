"""Sessions of girzohal_lsp by hand, for try_lsp.py: what a client sends, and the exact messages that it gets.

A session has its name, the log (none: there is no such file), the arguments (the log is named `log`, and comes last), the bodies
that a client sends and those that it gets, in order. After each session the client sends `shutdown` and `exit`, and the status is 0
unless stated otherwise.

The JSON is by hand, in the forms that the protocol gives it. Its keys are in their order, without blanks."""
import json

USAGE = ("usage: girzohal_lsp [--from auto|lines|sarif] [--tool NAME] [--columns bytes|characters|utf16|cells] "
         "[--first-column 0|1] LOG\n")
VERSION = "girzohal_lsp 0.1.0\n"

# ---- messages

BEGIN = '{"id":0,"method":"initialize","params":{}}'
BEGUN = ('{"id":0,"jsonrpc":"2.0","result":{"capabilities":{"positionEncoding":"utf-16",'
         '"textDocumentSync":{"change":2,"openClose":true,"save":true}},"serverInfo":{"name":"girzohal_lsp"}}}')
END = '{"id":1,"method":"shutdown"}'
ENDED = '{"id":1,"jsonrpc":"2.0","result":null}'
EXIT = '{"method":"exit"}'
EARLY_END = '{"error":{"code":-32002,"message":"the session hasn\'t begun"},"id":1,"jsonrpc":"2.0"}'
NO_JSON = '{"error":{"code":-32700,"message":"no JSON"},"id":null,"jsonrpc":"2.0"}'


def begin(capabilities):
    return '{"id":0,"method":"initialize","params":{"capabilities":%s}}' % capabilities


def begun(encoding):
    return BEGUN.replace("utf-16", encoding)


def opened(uri, text, version=1):
    """A document is opened; its text is written as JSON has it."""
    return ('{"method":"textDocument/didOpen","params":{"textDocument":{"uri":"%s","languageId":"c","version":%d,"text":"%s"}}}'
            % (uri, version, text))


def saved(uri):
    return '{"method":"textDocument/didSave","params":{"textDocument":{"uri":"%s"}}}' % uri


def logged(text):
    return '{"jsonrpc":"2.0","method":"window/logMessage","params":{"message":"%s","type":2}}' % text


def told(params):
    return '{"jsonrpc":"2.0","method":"textDocument/publishDiagnostics","params":%s}' % params


def published(uri, diagnostics, version=1):
    return told('{"diagnostics":[%s],"uri":"%s","version":%d}' % (",".join(diagnostics), uri, version))


def found(message, start, end, severity, before=""):
    """A diagnostic in a range, of lines and characters; what comes before its message is passed unchanged."""
    return ('{%s"message":"%s","range":{"end":{"character":%d,"line":%d},"start":{"character":%d,"line":%d}},"severity":%d}'
            % (before, message, end[1], end[0], start[1], start[0], severity))


def sarif(result, driver=None):
    """A SARIF log of one result, on one line."""
    return json.dumps({"version": "2.1.0", "runs": [{"tool": {"driver": driver or {"name": ""}}, "results": [result]}]}).encode()


def at(uri, region):
    return {"physicalLocation": {"artifactLocation": {"uri": uri}, "region": region}}


# ---- what a server says

A = "file:///a"
OPEN = opened(A, "\\u00e4 x\\n")
CHANGE = ('{"method":"textDocument/didChange","params":{"textDocument":{"uri":"file:///a","version":%d},"contentChanges":['
          '{"range":{"start":{"line":%d,"character":%d},"end":{"line":%d,"character":%d}},"text":"%s"}]}}')
NOT_OPEN = logged("didChange left out: no open document")
CLOSE = '{"method":"textDocument/didClose","params":{"textDocument":{"uri":"file:///a"}}}'
CLOSED = told('{"diagnostics":[],"uri":"file:///a"}')

# the capabilities of a client, the key by which it is answered, and the encoding
ENCODINGS = [
    ('{}', "positionEncoding", "utf-16"),
    ('{"general":{"positionEncodings":["utf-9","utf-32","utf-8"]}}', "positionEncoding", "utf-32"),
    ('{"general":{"positionEncodings":[]},"offsetEncoding":["utf-8"]}', "offsetEncoding", "utf-8"),
    ('{"general":{"positionEncodings":["utf-16"]},"offsetEncoding":["utf-8"]}', "positionEncoding", "utf-16"),
]

# The second change ends before it starts, so the first isn't kept either.
FAULTY = [
    ('{"method":"textDocument/didChange","params":{"textDocument":{"uri":"file:///a","version":2},"contentChanges":['
     '{"range":{"start":{"line":0,"character":0},"end":{"line":0,"character":1}},"text":""},'
     '{"range":{"start":{"line":0,"character":2},"end":{"line":0,"character":1}},"text":""}]}}',
     logged("didChange left out: contentChanges[1] ends before it starts")),
    ('{"method":"textDocument/didChange","params":{"contentChanges":{}}}', logged("didChange left out: not of its form")),
]

# where the text `ä x` of the faulty changes ends, and the row after it; a third row isn't there
ROWS = b"a:1:3: error: last\na:1: error: row\na:2: error: behind\na:3: error: none\n"
IN_ROWS = published(A, [found("last", (0, 2), (0, 3), 1), found("row", (0, 0), (0, 3), 1),
                        found("behind", (1, 0), (1, 0), 1), found("none", (0, 0), (0, 0), 1)])

SET_TWICE = sarif({"level": "error", "message": {"text": "set twice"}, "locations": [
    at("a", {"byteOffset": 3, "byteLength": 1}), at("a", {"byteOffset": 0, "byteLength": 2})]})

SERVED = [
    ("nothing counts before a session begins", b"", [],
     [END, '{"id":', OPEN, BEGIN, saved(A), CHANGE % (2, 0, 0, 0, 1, "")],
     [EARLY_END, NO_JSON, BEGUN, NOT_OPEN]),
    ("a faulty change is told, and the text stays", ROWS, [],
     [BEGIN, OPEN, FAULTY[0][0], FAULTY[1][0], saved(A)],
     [BEGUN, IN_ROWS, FAULTY[0][1], FAULTY[1][1], IN_ROWS]),
    # typed before the finding, past ASCII, and then over it
    ("findings move with the text", b"a:1:3: warning: unused\n", [],
     [BEGIN, OPEN, CHANGE % (2, 0, 0, 0, 1, "\\ud83d\\ude00\\n\\ud83d\\ude00"), CHANGE % (3, 1, 2, 2, 0, ""), CLOSE,
      saved(A), CHANGE % (4, 0, 0, 0, 1, "")],
     [BEGUN, published(A, [found("unused", (0, 2), (0, 3), 2)]), published(A, [found("unused", (1, 3), (1, 4), 2)], 2),
      published(A, [], 3), CLOSED, NOT_OPEN]),
    # what another label covers is deleted, and then what the head does
    ("a finding goes with its head", SET_TWICE, [],
     [BEGIN, OPEN, CHANGE % (2, 0, 0, 0, 1, ""), CHANGE % (3, 0, 0, 1, 0, "")],
     [BEGUN, published(A, [found("set twice\\n1:1: set twice", (0, 2), (0, 3), 1)]),
      published(A, [found("set twice", (0, 1), (0, 2), 1)], 2), published(A, [], 3)]),
]

# requests and the answer to each; the program ends after the last
LATE = [
    (BEGIN, BEGUN),
    ('{"id":"a","method":"textDocument/hover","params":{}}',
     '{"error":{"code":-32601,"message":"unknown method"},"id":"a","jsonrpc":"2.0"}'),
    (BEGIN, '{"error":{"code":-32600,"message":"not at this time"},"id":0,"jsonrpc":"2.0"}'),
    (END, ENDED),
    ('{"id":2,"method":"textDocument/hover"}',
     '{"error":{"code":-32600,"message":"not at this time"},"id":2,"jsonrpc":"2.0"}'),
    ('{"id":null,"method":"shutdown"}', ""),
    (EXIT, ""),
]

# ---- what clients receive

JS = "file:///a.js"
WORDY = opened(JS, "a\\r\\n\\ud83d\\ude00 x = y\\n", 3)
RELATED = '{"general":{"positionEncodings":["%s"]},"textDocument":{"publishDiagnostics":{"relatedInformation":true}}}'
UNRELATED = '{"general":{"positionEncodings":["%s"]}}'

UNDEFINED = sarif(
    {"level": "error", "ruleId": "no-undef", "message": {"text": "x isn't defined"}, "locations": [
        at("a.js", {"byteOffset": 8, "byteLength": 1}),
        dict(at("a.js", {"byteOffset": 12, "byteLength": 1}), message={"text": 'set "here"'})]},
    {"name": "eslint", "rules": [{"id": "no-undef", "helpUri": "https://e.org"}]})
CUT = sarif({"level": "note", "message": {"text": "cut"}, "locations": [at("a.js", {"charOffset": 2, "charLength": 0})]})

PARTS = '"code":"no-undef","codeDescription":{"href":"https://e.org"},'
IN_UTF16 = (
    '{"diagnostics":[{"code":"no-undef","codeDescription":{"href":"https://e.org"},"message":"x isn\'t defined",'
    '"range":{"end":{"character":4,"line":1},"start":{"character":3,"line":1}},'
    '"relatedInformation":[{"location":{"range":{"end":{"character":8,"line":1},"start":{"character":7,"line":1}},'
    '"uri":"file:///a.js"},"message":"set \\"here\\""}],"severity":1,"source":"eslint"}],"uri":"file:///a.js","version":3}')
IN_UTF8 = (
    '{"diagnostics":[{"code":"no-undef","codeDescription":{"href":"https://e.org"},'
    '"message":"x isn\'t defined\\n2:10: set \\"here\\"",'
    '"range":{"end":{"character":6,"line":1},"start":{"character":5,"line":1}},'
    '"severity":1,"source":"eslint"}],"uri":"file:///a.js","version":3}')
BARE = ('{"diagnostics":[{"message":"no tests","range":{"end":{"character":0,"line":0},"start":{"character":0,"line":0}},'
        '"severity":2}],"uri":"file:///a.js","version":3}')
IN_A_BREAK = ('{"diagnostics":[{"message":"cut","range":{"end":{"character":1,"line":0},"start":{"character":1,"line":0}},'
              '"severity":3}],"uri":"file:///a.js","version":3}')

TOLD = [
    ("all parts that a log has are told", UNDEFINED, [], [begin(RELATED % "utf-16"), WORDY], [BEGUN, told(IN_UTF16)]),
    ("labels that no client shows become lines", UNDEFINED, [], [begin(UNRELATED % "utf-8"), WORDY], [begun("utf-8"), told(IN_UTF8)]),
    ("one without labels stands at the beginning", b"a.js:9: warning: no tests\n", [],
     [begin(RELATED % "utf-32"), WORDY], [begun("utf-32"), told(BARE)]),
    ("a break is seen before its LF", CUT, [], [begin(RELATED % "utf-16"), WORDY], [BEGUN, told(IN_A_BREAK)]),
]

# ---- what a log has for a file

XY = "file:///x%20y/src/a.c"
IN_XY = opened(XY, "int x;\\nint totl;\\n")
LINES = b"a.c:2:5: error: no such name [x]\nb.c:1:1: error: elsewhere\nsrc/a.c:9:1: warning: past the end\n"

ON_THE_FILE = ("findings are those on the file", LINES, ["--from", "lines", "--tool", "gcc"], [BEGIN, IN_XY],
               [BEGUN, published(XY, [found("no such name", (1, 4), (1, 8), 1, '"code":"x",'),
                                      found("past the end", (0, 0), (0, 0), 2)])])

# the label in the open file, which is not the finding's
LABELED = b"""error[E0425]: cannot find function `g`
  --> a.rs:1:1
   |
 1 | g();
   | ^ not found
   |
  ::: b.rs:2:4
   |
 2 | fn h() {}
   |    - similar
   = help: a function with a similar name exists
"""
RS = "file:///b.rs"

IN_ANOTHER_FILE = [
    ("a label in another file is a finding there", LABELED, ["--from", "lines", "--tool", "rustc"],
     [BEGIN, opened(RS, "\\nfn h() {}\\n")], [BEGUN, published(RS, [found("similar", (1, 3), (1, 4), 3)])]),
    ("one that doesn't fit that file's text is none", LABELED, ["--from", "lines", "--tool", "rustc"],
     [BEGIN, opened(RS, "\\nfn i() {}\\n")], [BEGUN, published(RS, [])]),
]

# how names are spelled, a name, whether it means the file /x y/src/a.c, and the URI of a file that it means
NAMES = [
    ("lines", "a.c", True, "file:///b/a.c"),
    ("lines", "./src/a.c", True, "file:///src/a.c"),
    ("lines", "/x y/src/a.c", True, XY),
    ("lines", "file:///x%20y/src/a.c", True, XY),
    ("lines", "c/a.c", False, "file:///c/a.c"),
    ("lines", "x%20y/src/a.c", False, "file:///x%2520y/src/a.c"),
    ("lines", "file:", False, None),
    ("sarif", "x%20y/src/a.c", True, XY),
    ("sarif", "b.c", False, "file:///b.c"),
    ("sarif", "", False, None),
]


def named(spelling, name):
    """A log with a finding on this name."""
    if spelling == "lines":
        return name.encode() + b":1:1: error: here\n"
    return sarif({"level": "error", "message": {"text": "here"}, "locations": [at(name, {"startLine": 1, "startColumn": 1, "endColumn": 4})]})


HERE = found("here", (0, 0), (0, 3), 1)


def named_session(spelling, name, means, other):
    """The file and the other one are opened, under a log with this name."""
    bodies, wanted = [BEGIN, IN_XY], [BEGUN, published(XY, [HERE] if means else [])]
    if other not in (None, XY):
        bodies, wanted = bodies + [opened(other, "int x;\\n")], wanted + [published(other, [HERE])]
    return (f"a name in {spelling}: {name!r}", named(spelling, name), ["--from", spelling], bodies, wanted)


# ---- how a log is read

MARK = "\ufeff".encode()
EMPTY = b'{"version":"2.1.0","runs":[]}'
NO_FORM = "JSON of no known form; SARIF logs and lines are read"

# a log, the arguments, the URI of a file, what is shown on it, and what is wrong with the log
LOGS = [
    (MARK + EMPTY, [], "file:///a.c", [], None),
    (MARK + named("sarif", "a.c"), [], "file:///a.c", [HERE], None),
    (MARK + EMPTY, ["--from", "sarif"], "file:///a.c", [], None),
    (MARK + named("sarif", "a.c"), ["--from", "sarif"], "file:///a.c", [HERE], None),
    (MARK + b"a.c:1: x", [], "file:///a.c", [found("x", (0, 0), (0, 6), 2)], None),
    # of two marks one is left, as part of the name
    (MARK + MARK + b"{", ["--from", "lines"], "file:///a.c", [], None),
    (MARK + MARK + b"{:1:1: error: here", ["--from", "lines"], "file:///%EF%BB%BF%7B", [HERE], None),
    (MARK + MARK + b"{:1:1: error: here", ["--from", "lines"], "file:///%7B", [], None),
    (MARK + b" [{", [], "file:///a.c", [], NO_FORM),
    (b"[ x", [], "file:///a.c", [], None),
    (b"[ x:1:1: error: here", [], "file:///%5B%20x", [HERE], None),
    (b"one\ntwo\n{]}", ["--from", "sarif"], "file:///a.c", [], "no JSON at 3:3"),
]


def log_session(number, log, words, uri, shown, fault):
    wanted = [BEGUN] + ([logged("log: " + fault)] if fault else []) + [published(uri, shown)]
    return (f"a log is read: {number}, {log[:20]}", log, words, [BEGIN, opened(uri, "int x;\\n")], wanted)


# ---- words

# a form and a unit, and why they are wrong; none where they are right. The log comes first
UNCOUNTED = "--columns: a SARIF log counts characters or utf16"
COUNTED = [
    ("sarif", "utf16", None), ("sarif", "bytes", UNCOUNTED), ("sarif", "cells", UNCOUNTED), ("auto", "bytes", None), ("lines", "cells", None),
    ("lines", "feet", "--columns: expected bytes, characters, utf16 or cells, not 'feet'"),
]

# arguments, and the form that they say
WORDS = [
    ("--tool gcc --first-column 1 log", "auto"),
    ("--tool sarif --first-column 1 log", "sarif"),
    ("--tool sarif --from lines log", "lines"),
    ("--tool=sarif --from=lines -- log", "lines"),
    ("--tool sarif --tool gcc log", "auto"),
    ("--from lines log --from sarif", "sarif"),
]

# wrong arguments, and why
NO_TOOL = "--tool: expected a tool that --help lists, such as gcc or sarif, not "
WRONG_WORDS = [
    ("--tool sarif --columns bytes log", UNCOUNTED),
    ("--tool nonsense --from lines log", NO_TOOL + "'nonsense'"),
    ("--tool  --from sarif log", NO_TOOL + "''"),
    ("--from xml log", "--from: expected auto, sarif or lines, not 'xml'"),
    ("--from document log", "--from: expected auto, sarif or lines, not 'document'"),
    ("log --from", "--from needs a value: auto, sarif or lines"),
    ("--form sarif log", "unknown option --form; did you mean --from?"),
    ("--color never log", "unknown option --color"),
    ("--first 0 log", "unknown option --first; did you mean --first-column?"),
    ("--help=yes log", "--help takes no value, but has 'yes'"),
    (" log", "log is a second file; only one is read"),
    ("log ", " is a second file; only one is read"),
    ("", "the path of a log is missing"),
    ("--from lines", "the path of a log is missing"),
]

IN_C = opened("file:///a.c", "int x;\\n")
NO_LOG = [logged("log: no SARIF log"), published("file:///a.c", [])]
SHOWN, UNSHOWN = [published("file:///a.c", [HERE])], [published("file:///a.c", [])]

# for each form what is shown of a log of lines, and of a SARIF log
FORMS = {"auto": (SHOWN, SHOWN), "lines": (SHOWN, UNSHOWN), "sarif": (NO_LOG, SHOWN)}

# ---- when a log is looked up: of one that isn't there

NONE_THERE = ["--from", "lines", "--tool", "gcc"]
SAVED = saved("file:///a.c")
UNREAD = [logged("log: it can't be read"), published("file:///a.c", [])]
LOOKED_UP = [
    ("before a session nothing is looked up", [IN_C, SAVED, EXIT], [], 1),
    ("what is opened is looked up", [BEGIN, IN_C, END, EXIT], [BEGUN] + UNREAD + [ENDED], 0),
    ("what is saved is looked up anew", [BEGIN, IN_C, SAVED, END, EXIT], [BEGUN] + UNREAD + UNREAD + [ENDED], 0),
    ("behind shutdown nothing is looked up", [BEGIN, IN_C, END, SAVED, IN_C, EXIT], [BEGUN] + UNREAD + [ENDED], 0),
]

# ---- frames

SHUTDOWN = '{"id":"\u00e41","method":"shutdown"}'
EARLY = '{"error":{"code":-32002,"message":"the session hasn\'t begun"},"id":"%s","jsonrpc":"2.0"}'

# the bytes of a frame, and what it is answered before a session: a body comes with its last byte, and as a whole
BODIES = [
    ("Content-Length: 2\r\n\r\n{}", []),
    ("Content-Length: 0\r\n\r\n", [NO_JSON]),
    ("content-LENGTH:  3\r\nContent-Type: a; b=c\r\n\r\n\u00e41", [NO_JSON]),
    ("content-LENGTH:  %d\r\nContent-Type: a; b=c\r\n\r\n%s" % (len(SHUTDOWN.encode()), SHUTDOWN), [EARLY % "\u00e41"]),
    ("x" * 4072 + ":\r\nContent-Length: 0\r\n\r\n", [NO_JSON]),
]

# bytes, how many of them may begin a frame, and how that one goes on; with the byte after them the program ends
FAULTS = [
    ("Content-Length: 2 \r\n", 17, "\r\n\r\n{}"),
    ("Content-Length: 2\n", 17, "\r\n\r\n{}"),
    ("Content-Length 2\r\n", 16, ":\r\nContent-Length: 2\r\n\r\n{}"),
    ("Content-Length: 2\r\nContent-Length:", 33, "s:\r\n\r\n{}"),
    ("A: b\r\n\r", 6, "Content-Length: 2\r\n\r\n{}"),
    ("Content-Length: 8388609", 22, "\r\n\r\n{}" + " " * 838858),
    # the longest head has 4,096 bytes
    ("x" * 4073 + ":\r\nContent-Length: 0\r\n\r\n", 4096, None),
]

# chunks of frames, of which the last has a byte that is of no frame; of the bodies one is no JSON
CHUNKS = ["Content-Length: 2\r\n\r\n{}Content-Le", "ngth: 0\r\n\r\nContent-Length: 1\r\n\r\n1", "Content-Length: 1\r\n\r\n", "1:"]

# the length counts bytes
WIDE = ('{"id":"\u00e4\U0001f600","method":"shutdown"}', EARLY % "\u00e4\U0001f600")
