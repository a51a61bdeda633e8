#!/usr/bin/env python3
"""A second reader of the lines that tools print for people, by regular expressions, to hold the program against.

usage: line_reader.py [--tool NAME] [--shape SHAPE].. < OUTPUT        prints a line for each piece

It knows nothing of the crates but the rules on the pages of `line_shapes` and `tool_lines`. All is bytes."""
import re
import sys

ERROR, WARNING, ADVICE = "error", "warning", "advice"
WORDS = {
    ERROR: "error/fatal error/internal error/internal compiler error/runtime error/fatal/critical/severe/err/✖/×",
    WARNING: "warning/warn/alert/style/performance/portability/convention/refactor/⚠/‼",
    ADVICE: "note/advice/info/information/hint/help/remark/suggestion/notice/ℹ",
}
LEVELS = {word.encode(): level for level, words in WORDS.items() for word in words.split("/")}
GRADES = {b"E": ERROR, b"F": ERROR, b"W": WARNING, b"N": WARNING, b"C": ADVICE, b"R": ADVICE, b"I": ADVICE}
SMALL_GRADES = {b"e": ERROR, b"w": WARNING, b"i": ADVICE}

FIGURE = rb"(?:0|[1-9][0-9]*)(?![0-9])"
PARTS = {
    "line": FIGURE, "column": FIGURE, "endline": FIGURE, "endcolumn": FIGURE,
    "level": rb"(?i:" + b"|".join(sorted(map(re.escape, LEVELS), key=len, reverse=True)) + rb")(?![A-Za-z0-9_-])",
    "letter": rb"[EFWNCRI]",
    "small": rb"[ewi]",
    "number": rb"[A-Z]{1,6}[0-9]{1,6}(?![A-Za-z0-9_])",
    "rule": rb"[^ \t\[\](){}:,]+",
    "cop": rb"[A-Za-z0-9]+(?:/[A-Za-z0-9]+)+(?![A-Za-z0-9/])",
    "program": rb"[A-Za-z/][A-Za-z0-9_.+/-]*",
    "~": rb"[ \t]*",
    " ": rb"[ \t]+",
    "message": rb"(?s:[^ \t].*)",
    "apart": rb"",
}
PAINT = re.compile(rb"\x1b\[[0-9;]*[mK]|\x1b\]8;[^\x07\x1b\n]*(?:\x07|\x1b\\)|\x1b\(B")
GUTTER = re.compile(rb"[ \t]*[0-9]*[ \t]*\|")


def walk_of(text):
    """The parts of a text, each with what it takes; a part ends in one place at most, so they are taken one by one."""
    walk = []
    for part, blanks, plain in re.findall(r"\{([a-z~]+)\}|( +)|([^{ ]+)", text):
        takes = PARTS[part] if part else PARTS[" "] if blanks else re.escape(plain.encode())
        walk.append((part, re.compile(takes)))
    return walk


class Shape:
    """What comes before a name, the name's kind, and what comes after it."""

    def __init__(self, text):
        before, self.kind, after = re.fullmatch(r"(.*)\{(name|word)\}(.*)", text).groups()
        self.before, self.after = walk_of(before), walk_of(after)

    def named(self, line):
        """The place of a line that is all of the shape, with the shortest name."""
        begun = taken(self.before, line, 0)
        for end in range(begun[1] + 1, len(line)) if begun else ():
            behind = taken(self.after, line, end)
            if behind and behind[1] == len(line) and is_name(line[begun[1]:end], self.kind == "word"):
                return {**begun[0], "name": line[begun[1]:end], **behind[0]}
        return None


def taken(walk, line, at):
    """What the parts take from a place on, and where they end; none where one doesn't fit."""
    found = {}
    for part, takes in walk:
        it = takes.match(line, at)
        if not it or takes.pattern == FIGURE and int(it[0]) >= 2 ** 32:
            return None
        if part and part != "~":
            found[part] = it[0]
        at = it.end()
    return found, at


def whole(walk, line, at=0):
    it = taken(walk, line, at)
    return it[0] if it and it[1] == len(line) else None


def is_name(text, one_word=False, bracket=True):
    if re.fullmatch(rb"<[a-z ]+>", text):
        return True
    if not text or text[:1] in b" \t" or not bracket and text[:1] == b"[":
        return False
    if re.search(rb'[*?"<>|]|:[ \t0-9]', text) or re.search(rb"[0-9]T[0-9]+$", text.replace(b"\n", b" ")):
        return False
    if b"://" in text and not text.startswith(b"file://") or one_word and re.search(rb"[ \t]", text):
        return False
    return bool(re.search(rb"[A-Za-z\x80-\xff][^ \t]*\Z", text))


LEADS = [(walk_of("[{level}] "), False, True), ([], False, True), (walk_of("{program}: "), False, False), (walk_of(" "), True, True)]
AFTERS = [walk_of(text) for text in (
    ":{line}:{column}:{endline}:{endcolumn}: ", ":{line}:{column}-{endcolumn}: ", ":({line},{column})-({endline},{endcolumn}): ",
    ":{line}:{column}: ", ":{line}:{column} - {apart}", ":{line}: ", "({line},{column},{endline},{endcolumn}){~}: ", "({line},{column}){~}: ",
    "({line}){~}: ", "[{line}, {column}]: ", ":[{line},{column}] ", ": line {line}, col {column}, ", ": ({line}, {column}): ",
    ":{line}.{column}-{endline}.{endcolumn}: ", ":{line}.{column}-{endcolumn}: ", ":{line}.{column}: {level}: ", ":{line}:0{column}: ",
    ":{line}:in `{program}': ", ":{line}:in `<{program}>': ", ":{line}:in `block in {program}': ", ":{line}:in `block in <{program}>': ")]
# Each with what else it says: a rule after a level, brackets, a colon after a number, stars, or just a message.
RESTS = [(walk_of(text), manner) for text, manner in (
    ("{level}[{rule}]: {message}", "ruled"), ("{level} {rule}: {message}", "ruled"), ("{level}: [{rule}] {message}", "ruled"),
    ("{level}: {message}", ""), ("{level} {rule} [{rule}]: {message}", "ruled"), ("{level} - {message}", "boxed"), ("[{level}] {message}", "boxed"), ("[{letter}] {message}", "boxed"),
    ("{letter}: [Correctable] {cop}: {message}", ""), ("{letter}: {cop}: {message}", ""), ("{letter}: {message}", ""),
    ("{number}: {message}", "colon"), ("{number} {level}: {message}", ""), ("{number} {message}", ""), ("[{number}] {message}", "boxed"),
    ("({number}) {message}", "boxed"),
    ("*** {message}", "stars"), ("{message}", "alone"))]
BARE = [walk_of(text) for text in ("{level}:{~}", "{level}: [{rule}]{~}", "[{rule}]{~}")]
UNDER = walk_of(" {line}:{column} {level} {message}")
ANNOUNCED = [walk_of(text) for text in (
    "{level}[{rule}]: {message}", "{level}: × {message}", "{level}: {message}", " {level} {rule}({rule}): {message}", " {level} {message}",
    "[{rule}] {level}: {message}", "{number} {message}", "{rule}: {message}")]
ARROW = Shape("{~}--> {name}:{line}:{column}")
ARROWS = [Shape(text) for text in (
    "{~}╭▸ {name}:{line}:{column}", "{~}┌─ {name}:{line}:{column}", "{~}╭─[{name}:{line}:{column}]", "{~}╭─[ {name}:{line}:{column} ]",
    "{~},-[{name}:{line}:{column}]", "{~}::: {name}:{line}:{column}", "{~}⸬ {name}:{line}:{column}")]
# Lines with nothing but a location.
PLACES = [Shape(text) for text in (
    "{word}:{line}:{column}:{apart}", "In {word}:{line}:{column}{apart}", 'File "{name}", line {line}, characters {column}-{endcolumn}:{apart}',
    'File "{name}", lines {line}-{endline}, characters {column}-{endcolumn}:{apart}')]
TOOLS = {tool: [Shape(text) for text in texts] for tool, texts in {
    "dotenv-linter": ["{name}:{line} {message}"], "fasterer": ["{name}:{line} {message}"],
    "haml-lint": ["{name}:{line} [{letter}] {message}"], "slim-lint": ["{name}:{line} [{letter}] {message}"],
    "phpstan": ["{name}:{line}:{message}"], "grep": ["{name}:{line}:{message}"],
    "psalm": ["{name}:{line}:{column}:{level} - {message}"], "hadolint": ["{name}:{line} {number} {level}: {message}"],
    "markdownlint": ["{name}:{line}:{column} {rule} {message}", "{name}:{line} {rule} {message}"],
    "fpc": ["{name}({line},{column}) {level}: {message}", "{name}({line}) {level}: {message}"], "nim": ["{name}({line}, {column}) {level}: {message}"],
    "kotlin": ["{small}: {name}:{line}:{column} {message}", "{small}: {name}: ({line}, {column}): {message}"]}.items()}


def place(line):
    """What was found of a line's location, and where its message begins: of the first lead, the shortest name, the first text after it."""
    for walk, one_word, bracket in LEADS:
        begun = taken(walk, line, 0)
        if not begun:
            continue
        for mark in re.compile(rb"[:(\[]").finditer(line, begun[1] + 1):
            end = mark.start()
            behind = next(filter(None, (taken(after, line, end) for after in AFTERS)), None)
            if behind and is_name(line[begun[1]:end], one_word, bracket):
                return {**begun[0], "name": line[begun[1]:end], **behind[0]}, behind[1]
    return None


def said(line, at):
    for walk, manner in RESTS:
        found = whole(walk, line, at)
        if found is not None:
            return found, manner
    return None


def speaks(line, at, found):
    """Whether a message alone makes a finding of a line with a place."""
    name = found["name"]
    if line[at - 2:at] == b"  ":
        return False
    last = re.search(rb"\[([^ \t\[\]]+)\]\Z", found["message"])
    if last and re.fullmatch(rb"(?is:(?:error|warning)(?:/.+)?)", last[1]):
        return True
    numbered = name[-1:].isdigit() and not re.search(rb"\.[A-Za-z][A-Za-z0-9]*\Z", name)
    return line[at - 3:at - 1] != b"):" and not re.search(rb"[ \t]", name) and not numbered


def last_code(message, boxed):
    """A message without the code after it, and the code."""
    it = re.fullmatch(rb"(?s:(.*[^ \t])[ \t]+\[([^ \t\[\]]+)\])", message)
    if it:
        return it.groups()
    it = re.fullmatch(rb"(?s:(.*[^ \t])[ \t]+\(([^ \t()]+)\))", message)
    code = rb"@?[a-z0-9_][a-z0-9_:/-]*[-_/:][a-z0-9_:/-]*[a-z0-9_]|[A-Z]{1,6}[0-9]{1,6}"
    return it.groups() if it and (boxed or re.fullmatch(code, it[2])) else None


def finding(found, manner=""):
    """What a finding says of which these parts were found."""
    message, boxed, severity = found.get("message", b"").rstrip(b" \t"), manner == "boxed", None
    code = found.get("rule") or found.get("number") or found.get("cop")
    if "level" in found:
        severity = LEVELS[found["level"].lower()]
    elif "letter" in found or "small" in found:
        severity = GRADES[found["letter"]] if "letter" in found else SMALL_GRADES[found["small"]]
    elif manner == "stars":
        severity = ERROR
    if severity is None and "number" in found and not code[1:2].isalpha():
        severity = ERROR if code[:1] in b"EF" else ADVICE if code[:1] in b"CRI" and manner == "colon" else None
    if code is None:
        it = re.fullmatch(rb"(?s:(.*[^ \t])[ \t]+\[([^ \t\[\]]+)\])", message)
        if it and severity is None and it[2].lower() in LEVELS:
            message, severity, boxed = it[1], LEVELS[it[2].lower()], True
        behind = last_code(message, boxed)
        if behind:
            message, code = behind
            it = re.fullmatch(rb"(?is:(error|warning)/(.+))", code)
            if it:
                code, severity = it[2], severity or it[1].lower().decode()
    errors = rb"[^:]*[Ee]rror[ \t]*:|(?i:undefined reference to |multiple definition of )|(?s:.*Error\)\Z)"
    if severity is None and manner == "alone" and re.match(errors, message):
        severity = ERROR
    figures = {key: int(found[key]) if key in found else None for key in ("line", "column", "endline", "endcolumn")}
    aside = found.get("level", b"").lower() in (b"note", b"help") and code is None
    return {"name": found["name"], **figures, "apart": "apart" in found, "told": "level" in found or code is not None, "severity": severity or WARNING, "code": code, "message": message, "aside": aside, "details": []}


def gutter_of(line):
    it = GUTTER.match(line)
    return it.end() if it else None


def are_marks(line):
    end = gutter_of(line)
    body = line[end or 0:]
    return not body.strip(b" \t^~-+_=") and bool(re.search(rb"[\^~]", body)) and (end is not None or body[:1] in (b" ", b"\t", b"^", b"~"))


def arrow(line):
    """The location in a line that is an arrow."""
    there = ARROW.named(line[:-1] if line.endswith(b":") else line) if b"-->" in line else None
    if there is None:
        there = next(filter(None, (shape.named(line) for shape in ARROWS)), None)
        return None if there is None or place(line) else there
    return there


def ends_message(line):
    """Whether a line has a code at its end, two blanks before it or nothing."""
    if len(line) >= 2 and line[:1] == b"[" and line[-1:] == b"]":
        return True
    behind = last_code(line, False)
    return bool(behind) and len(behind[0]) + len(behind[1]) + 4 <= len(line)


def is_row(line):
    """Whether a line begins as a row of a source does: with a blank, or a number and a blank."""
    return bool(re.match(rb"[0-9]*[ \t]", line))


def is_drawn(line):
    return are_marks(line) or gutter_of(line) is not None or line.lstrip(b" \t")[:1].isdigit()


def retold(it):
    """A finding of a line with nothing but a location says what the first line below says, if that has a level."""
    if it["message"] or it["told"] or not it["details"]:
        return it
    found, manner = said(it["details"][0], 0) or ({}, "")
    if "level" not in found:
        return it
    more = finding({"name": it["name"], **found}, manner)
    return {**it, **{key: more[key] for key in ("severity", "code", "message")}, "details": it["details"][1:]}


class Reader:
    def __init__(self, text, shapes=()):
        plain = PAINT.sub(b"", text)
        # (a last LF ends a line, and begins none)
        lines = plain.removesuffix(b"\n").split(b"\n") if plain else []
        self.lines = [line[:-1] if line.endswith(b"\r") else line for line in lines]
        self.shapes, self.known = list(shapes), {}

    def line(self, at):
        return self.lines[at] if at < len(self.lines) else None

    def announced(self, at):
        after = self.line(at + 1)
        there = arrow(after) if after is not None else None
        found = there and next((it for it in (whole(walk, self.lines[at]) for walk in ANNOUNCED) if it is not None), None)
        return finding({**there, **found}) if found is not None and there else None

    def heads(self, at):
        line, after = self.lines[at], self.line(at + 1)
        return bool(line) and line[:1] not in (b" ", b"\t") and after is not None and whole(UNDER, after) is not None

    def placed(self, at):
        for shape in self.shapes:
            found = shape.named(self.lines[at])
            if found is not None:
                return finding(found)
        it = self.told_in(at)
        if it is None:
            there = next(filter(None, (shape.named(self.lines[at]) for shape in PLACES)), None)
            return finding(there) if there else None
        return it

    def told_in(self, at):
        """The finding of a line with a location and more."""
        line, after = self.lines[at], self.line(at + 1)
        there = place(line)
        if there is None:
            return None
        found, end = there
        below = bool(after) and after[:1] in (b" ", b"\t") and bool(after.strip(b" \t")) and not are_marks(after)
        bare = below and next((it for it in (whole(walk, line, end) for walk in BARE) if it is not None), None)
        if bare:
            return finding({**found, **bare})
        it = said(line, end)
        if it is None:
            return None
        all_found, manner = {**found, **it[0]}, it[1]
        if below and manner == "ruled" and re.fullmatch(rb"\[[^ \t\[\]]+\]", all_found["message"]):
            return finding({key: value for key, value in all_found.items() if key != "message"})
        serves = manner != "alone" or "level" in found or speaks(line, end, all_found)
        return finding(all_found, manner) if serves else None

    def begun(self, at):
        """What begins at a line: its sort, and its finding."""
        if at not in self.known:
            announced = self.announced(at)
            placed = None if announced or self.heads(at) else self.placed(at)
            self.known[at] = ("announced", announced) if announced else ("heading", None) if self.heads(at) else ("spaced" if placed["apart"] else "inline", placed) if placed else ("kept", None)
        return self.known[at]

    def may_trail(self, at, apart):
        line, after = self.lines[at], self.line(at + 1)
        if apart and (not line and after is not None and is_row(after) or line and (is_row(line) or "level" in (said(line, 0) or ({},))[0])):
            return True
        if line.startswith(b"In file included from ") and after is not None and self.is_note(after):
            return True
        if line.startswith(b'fix-it:"') or after is not None and after[:4] == b"    " and ends_message(line):
            return True
        return bool(line) and bool(line[:1] in b" \t" or re.match(rb"[0-9]+ +\|", line) or are_marks(line) or after is not None and are_marks(after))

    def is_note(self, line):
        """Whether a note begins at a line, whatever follows."""
        it = Reader(line, self.shapes).begun(0)[1] if line else None
        return it is not None and it["aside"]

    def trail(self, at, apart):
        """Where the trail ends that begins at a line, its details, and the column of the caret in it."""
        end = at
        while end < len(self.lines) and self.may_trail(end, apart) and self.begun(end)[0] == "kept":
            end += 1
        run = self.lines[at:end]
        if apart:
            texts = [line.strip(b" \t") for line in run if not is_drawn(line) and not line.startswith(b'fix-it:"')]
            return end, [text for text in texts if text], None
        marks = [number for number, line in enumerate(run) if are_marks(line)]
        adds = run[:max(marks[0] - 1, 0)] if marks else run
        behind = [line.strip(b" \t") for line in run[marks[-1] + 1:] if re.match(rb"  [a-z]", line)] if marks else []
        adds = [line for line in adds if not line.startswith(b'fix-it:"')]
        texts = [line.strip(b" \t") for line in adds if gutter_of(line) is None or line[gutter_of(line):].strip(b" \t")]
        caret = run[marks[0]].find(b"^") if marks and marks[0] and gutter_of(run[marks[0]]) is None and gutter_of(run[marks[0] - 1]) is None else -1
        return end, [text for text in texts if text] + behind, None if caret < 0 else caret

    def pieces(self):
        at, name = 0, None
        while at < len(self.lines):
            under = whole(UNDER, self.lines[at]) if name is not None else None
            if under is not None:
                it = finding({**under, "name": name})
                gap = re.search(rb"(?<![ \t])(?:\t|  )", it["message"])
                if gap and it["code"] is None:
                    rest = it["message"][gap.start():].lstrip(b" \t")
                    it["message"], it["code"] = it["message"][:gap.start()], re.sub(rb"(?s)\A\((.+)\)\Z", rb"\1", re.split(rb"\t|[ \t]{2}", rest)[0])
                yield "below", it, at, at + 1
                at += 1
                continue
            sort, it = self.begun(at)
            name, end = None, at + 1
            if sort == "heading":
                name = self.lines[at]
            elif sort == "announced":
                end, it = self.announced_run(at, it)
            elif sort in ("inline", "spaced"):
                end, details, caret = self.trail(at + 1, sort == "spaced")
                it = retold({**it, "details": details, "caret": caret})
                if not it["message"] and details:
                    it = {**it, "message": details[0], "details": details[1:]}
            yield sort, it, at, end
            at = end

    def announced_run(self, at, it):
        end, details = at + 2, []
        while end < len(self.lines) and self.lines[end] and not self.announced(end):
            note = re.match(rb"(?s)(?:[ \t]*(?:= |\xe2\x94\x9c |\xe2\x95\xb0 ))?(?:note|help): (.*)\Z", self.lines[end])
            details += [note[1]] if note else []
            end += 1
        return end, {**it, "details": details}


def main():
    words = sys.argv[1:]
    shapes = [Shape(words[at + 1]) for at, word in enumerate(words) if word == "--shape"]
    for at, word in enumerate(words):
        shapes += TOOLS.get(words[at + 1], []) if word == "--tool" else []
    reader = Reader(sys.stdin.buffer.read(), shapes)
    for sort, it, at, end in reader.pieces():
        if it is None:
            print(f"{sort}: {reader.lines[at].decode(errors='replace')}")
            continue
        place = ":".join(str(it[key]) for key in ("line", "column", "endline", "endcolumn"))
        texts = [it["name"], it["code"] or b"-", it["message"], *it["details"]]
        print(f"{sort}: {it['severity']} {place}", *(repr(text.decode(errors="replace")) for text in texts))


if __name__ == "__main__":
    main()
