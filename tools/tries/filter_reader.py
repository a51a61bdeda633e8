#!/usr/bin/env python3
"""A second reader of diffs, and a second judge of findings, that `try_filters.py` compares the program with. Rows are sets, and a
baseline is a list that is searched: slow and plain."""
import re

MODES = ("added", "diff_context", "file", "nofilter")
RANK = {"advice": 1, "warning": 2, "error": 3}
WORDS = {"added": "not on added lines", "diff_context": "not on lines of the diff", "file": "not in changed files", "nofilter": "not in changed files"}


class Refused(Exception):
    """A diff that isn't read: the row, from 1, and what had to be there."""


def plain(name, root=None):
    """A name without `./`, `//` and `x/..`; below the root, from there."""
    at = []
    for part in name.split("/"):
        if part in ("", "."):
            continue
        if part == ".." and at and at[-1] != "..":
            at.pop()
        elif part != ".." or not name.startswith("/"):
            at.append(part)
    name = ("/" if name.startswith("/") else "") + "/".join(at)
    front = root.rstrip("/") + "/" if root else None
    return name[len(front):] if front and name.startswith(front) else name


# ---- diffs

ESCAPES = {"a": 7, "b": 8, "t": 9, "n": 10, "v": 11, "f": 12, "r": 13, '"': 34, "\\": 92}


def name_in(text, row):
    """A name up to a tab, or as git quotes it."""
    text = text.removesuffix("\r")
    if not text.startswith('"'):
        return text.split("\t")[0]
    found, rest = bytearray(), text[1:]
    while rest and rest[0] != '"':
        octal = re.match(r"\\([0-3][0-7][0-7])", rest)
        if octal:
            found.append(int(octal[1], 8))
            rest = rest[4:]
        elif rest[0] == "\\":
            if rest[1:2] not in ESCAPES:
                raise Refused(row)
            found.append(ESCAPES[rest[1]])
            rest = rest[2:]
        else:
            found += rest[0].encode("utf-8", "surrogateescape")
            rest = rest[1:]
    if not rest:
        raise Refused(row)
    return found.decode("utf-8", "replace")


def prefix(name):
    return name[0] if re.match(r"[abciwo12]/", name) else None


def new_name(new, old, strip):
    """The name of the new file, without the folders that were put before it; none if there is no new file."""
    if new == "/dev/null":
        return None
    if strip is None:
        differ = old == "/dev/null" or prefix(old) not in (None, prefix(new))
        strip = 1 if prefix(new) and differ else 0
    parts = new.split("/")
    return "/".join(parts[strip:]) if strip < len(parts) else None


def read_diff(text, strip=None):
    """For each new file the rows that were added, and those that a hunk shows."""
    files, lines = {}, text.split("\n")
    if lines[-1] == "":
        lines.pop()
    named, file, at = False, None, 0
    while at < len(lines):
        line, row = lines[at], at + 1
        at += 1
        if re.match(r"diff --git |Index: ", line):
            named, file = False, None
        elif re.match(r"diff --cc |diff --combined |@@@", line):
            raise Refused(row)
        elif re.match(r"(rename|copy) to ", line):
            file = plain(name_in(line.split(" to ", 1)[1], row))
            files.setdefault(file, (set(), set()))
        elif line.startswith("--- ") and at < len(lines) and lines[at].startswith("+++ "):
            name = new_name(name_in(lines[at][4:], row + 1), name_in(line[4:], row), strip)
            at += 1
            named, file = True, None if name is None else plain(name)
            if file is not None:
                files.setdefault(file, (set(), set()))
        elif line.startswith("@@ "):
            head = re.fullmatch(r"@@ -(\d+)(?:,(\d+))? \+(\d+)(?:,(\d+))? @@( .*)?\r?", line)
            if not head or not named:
                raise Refused(row)
            old, start, new = int(head[2] or 1), int(head[3]), int(head[4] or 1)
            if old == new == 0:
                raise Refused(row)
            while old or new:
                kind = lines[at][:1] if at < len(lines) else "end"
                if kind in (" ", "", "\r") and old and new:
                    old, new, told = old - 1, new - 1, (1,)
                elif kind == "-" and old:
                    old, told = old - 1, ()
                elif kind == "+" and new:
                    new, told = new - 1, (0, 1)
                elif kind == "\\":
                    told = ()
                else:
                    raise Refused(at + 1)
                if file is not None:
                    for place in told:
                        files[file][place].add(start)
                start += 1 if told else 0
                at += 1
    return files


def on_changed(it, files, mode, root):
    """Whether a diff leaves a finding."""
    if mode == "nofilter" or not it["file"]:
        return True
    rows = files.get(plain(it["file"], root))
    if rows is None:
        return False
    if mode == "file" or not it["line"]:
        return True
    last = it["end_line"] or it["line"]
    if last > it["line"] and it["end_column"] == 1:
        last -= 1
    return any(row in rows[0 if mode == "added" else 1] for row in range(it["line"], max(last, it["line"]) + 1))


# ---- what is compared

def message_of(text):
    """A message with each number that stands alone as 0, and blanks as one space."""
    beside = "A-Za-z0-9_\x80-\U0010ffff"
    return " ".join(re.split(r"[ \t\r\n]+", re.sub(f"(?<![{beside}])[0-9]+(?![{beside}])", "0", text).strip(" \t\r\n")))


def kind_of(it, root, scopes):
    """What alike findings share. Only a document says scopes: with any other baseline they aren't compared."""
    return plain(it["file"], root) if it["file"] else "", scopes and it["scope"] or "", it["code"] or "", message_of(it["message"])


def row_of(it):
    return None if it.get("row") is None else re.sub(r"[ \t\r\n\f\v]+", "", it["row"])


def exact_of(it, root):
    return (plain(it["file"], root) if it["file"] else "", *(it[key] for key in ("line", "column", "end_line", "end_column", "severity")),
            it["scope"] or "", it["code"] or "", it["message"])


def repeats(findings, root):
    texts = [exact_of(it, root) for it in findings]
    return [text in texts[:at] for at, text in enumerate(texts)]


def known(findings, taken, entries, late, root, scopes):
    """Which findings are taken or have an entry: by equal rows; then those without a row, by entries with one; then by entries without."""
    flags, left = list(taken), [(kind_of(it, root, scopes), row_of(it)) for it in entries]
    order = sorted(range(len(findings)), key=lambda at: late[at])

    def serve(at, fits):
        for entry in left:
            if fits(entry):
                left.remove(entry)
                flags[at] = True
                return

    for wanted in (0, 1, 2):
        for at in order:
            kind, row = kind_of(findings[at], root, scopes), row_of(findings[at])
            if flags[at]:
                continue
            if wanted == 0 and row is not None:
                serve(at, lambda entry: entry == (kind, row))
            elif wanted == 1 and row is None:
                serve(at, lambda entry: entry[0] == kind and entry[1] is not None)
            elif wanted == 2:
                serve(at, lambda entry: entry == (kind, None))
    return flags, len(left)


# ---- patterns

def glob(pattern, slash):
    """The expression of a pattern: `*` is a run without slashes, `**` any, `?` one character."""
    any_one = f"[^{slash}]" if slash else "."
    parts = {"*": any_one + "*", "?": any_one}
    return "".join(".*" if part.startswith("**") else parts.get(part, re.escape(part)) for part in re.findall(r"\*\*+|[^*]|\*", pattern))


def takes_file(pattern, name):
    pattern = pattern.removeprefix("./")
    path = pattern.rstrip("/")
    anywhere = "/" not in path
    path = path if name.startswith("/") else path.lstrip("/")
    ending = "/.*" if pattern.endswith("/") else "(/.*)?"
    return re.fullmatch(("(.*/)?" if anywhere else "") + glob(path, "/") + ending, name, re.S) is not None


def takes_rule(pattern, it):
    code, scope = it["code"] or "", it["scope"] or ""
    texts = [code] + ([scope, f"{scope}({code})", f"{scope}/{code}"] if scope else [])
    return any(re.fullmatch(glob(pattern, ""), text, re.S) for text in texts)


def selected(it, wants, root):
    name = plain(it["file"], root) if it["file"] else ""
    if name and (wants["include"] and not any(takes_file(p, name) for p in wants["include"]) or any(takes_file(p, name) for p in wants["exclude"])):
        return False
    if wants["select"] and not any(takes_rule(p, it) for p in wants["select"]) or any(takes_rule(p, it) for p in wants["ignore"]):
        return False
    return RANK[it["severity"]] >= RANK.get(wants["severity"], 0)


# ---- all filters

def judge(findings, wants, root):
    """For each finding whether it stays, and the line about all of them. `wants` has the values of options, and `changed` and `baseline` read."""
    twice = repeats(findings, root) if wants["unique"] else [False] * len(findings)
    late = [wants["changed"] is not None and on_changed(it, wants["changed"], wants["mode"], root) for it in findings]
    entries = wants["baseline"] or []
    if wants["unique"]:
        entries = [it for it, again in zip(entries, repeats(entries, root)) if not again]
    taken, gone = known(findings, twice, entries, late, root, wants.get("scopes", True))
    counts, stays = {"repeated": 0, "in the baseline": 0, "not selected": 0, WORDS[wants["mode"]]: 0}, []
    for it, again, has, changed in zip(findings, twice, taken, late):
        why = "repeated" if again else "in the baseline" if has else "not selected" if not selected(it, wants, root) else None
        if why is None and wants["changed"] is not None and not changed:
            why = WORDS[wants["mode"]]
        stays.append(why is None)
        if why:
            counts[why] += 1
    parts = ", ".join(f"{count} {words}" for words, count in counts.items() if count)
    line = f"girzohal: {sum(stays)} of {len(findings)} finding{'' if len(findings) == 1 else 's'}" + (f": {parts}" if parts else "")
    line += f"; {gone} of the baseline {'is' if gone == 1 else 'are'} gone" if gone else ""
    return stays, line + "\n"
