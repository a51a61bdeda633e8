#!/usr/bin/env python3
"""A second reader of what tools print as JSON or XML, that `try_values.py` compares the program with. The forms are those of the table
in crates/json_forms (and of the one for XML); how they are read is written here anew: slow and plain."""
import json
import os
import re
import xml.parsers.expat

TOP = os.path.dirname(os.path.dirname(os.path.dirname(os.path.abspath(__file__))))
ABSENT = object()
NUMBERS = "line line0 column column0 end_line end_column length offset end_offset".split()
TEXTS = "file severity code message help note url text".split()
POSN = re.compile("(.*?):([0-9]+)(?::([0-9]+))?", re.S)  # a file, a row and perhaps a column, in one text
SIDES = ("place", "labels", "edits", "notes")
CONSTANTS = ("scope", "unit", "end", "default", "as")
ROOTS = ("checkstyle", "results", "pmd", "jslint")
XML_NAMES = ("checkstyle", "cppcheck", "pmd", "jslint")
SEVERITY = {
    "error": "error err fatal failure failed ice critical blocker high e f 2 error:_internal_compiler_error",
    "warning": "warning warn major medium moderate w 1",
    "advice": "note info information informational hint help advice suggestion notice style convention refactor performance portability "
              "recommendation low minor trivial none off ignored ignore i c r 0 failure-note",
}
WORDS = {word.replace("_", " "): severity for severity, words in SEVERITY.items() for word in words.split()}
WANTED = {"array": "an array", "object": "an object", "text": "a text", "number": "a whole number below 2^32", "message": "a message",
          "value": "a value, not null", "form": "JSON of a known form", "one form": "JSON of one form, not of two"}
# Forms for XML, in the notation of the table, for as long as the repository has no table of them.
XML_TABLE = """\
form=checkstyle mark=checkstyle:o
list=checkstyle.file[].error[] default=error file=^^name line=line column=column end_line=endline severity=severity code=source message=message url=externalInfoUrl
list=checkstyle.file[].exception[] default=error file=^^name message="#text"
list=checkstyle.exception[] default=error message="#text"
form=cppcheck mark=results.errors:a
list=results.errors[].error[] scope=cppcheck unit=bytes file=file0 severity=severity code=id message=msg note=verbose
place=location[] unit=bytes file=file line=line column=column text=info
labels=location[] unit=bytes file=file line=line column=column text=info
form=pmd mark=pmd:o
list=pmd.file[].violation[] scope=pmd end=last file=^^name line=beginline column=begincolumn end_line=endline end_column=endcolumn severity=priority level=1:error,2:error,3:warning,4:advice,5:advice code=rule message="#text" url=externalInfoUrl
list=pmd.error[] default=error file=filename message=msg
form=jslint mark=jslint:o
list=jslint.file[].issue[] unit=utf16 default=warning file=^^name line=line column=char message=reason
"""


class Refused(Exception):
    """An input that isn't read: where, and what had to be there; or None where no more is known."""

    def __init__(self, where, wanted=None):
        super().__init__(f"{where}: wanted {WANTED.get(wanted, wanted)}")
        self.where, self.wanted = where, wanted


# ---- values: texts are str, arrays are lists; numbers, as they are written, and objects have classes of their own

class Number(str):
    pass


class Members:
    def __init__(self, pairs):
        self.pairs = pairs

    def get(self, name):
        """The last member of a name."""
        return next((value for own, value in reversed(self.pairs) if own == name), ABSENT)


def no_constant(word):
    raise ValueError(word)


def parse(text):
    """The value of a JSON text."""
    return json.loads(text, object_pairs_hook=Members, parse_int=Number, parse_float=Number, parse_constant=no_constant)


def depth(value):
    inner = value if isinstance(value, list) else [it for _, it in value.pairs] if isinstance(value, Members) else None
    return 0 if inner is None else 1 + max(map(depth, inner), default=0)


def kind(value):
    if value is ABSENT:
        return "-"
    if value is None:
        return "0"
    if isinstance(value, bool):
        return "b"
    if isinstance(value, Number):
        return "n"
    return "t" if isinstance(value, str) else "a" if isinstance(value, list) else "o"


def is_hollow(value):
    return value is None or value == [] or isinstance(value, Members) and not value.pairs


# ---- the notation of forms

def table_text(path):
    """The text of a table in a source: a literal with escapes, in which a backslash at an end of a line takes the blanks after it."""
    with open(path, encoding="utf-8") as file:
        literal = re.search(r'static \w+: &str = "((?:[^"\\]|\\.)*)";', file.read(), re.S)[1]
    return re.sub(r"\\(\n\s*|.)", lambda it: {"n": "\n", "t": "\t"}.get(it[1], "" if it[1][0] == "\n" else it[1]), literal, flags=re.S)


def split(text, separator):
    """The parts between separators that aren't in quotes."""
    return re.findall(rf'(?:"[^"]*"|[^"{separator}])+', text)


def steps_of(text):
    steps, at = [], 0
    pattern = re.compile(r'(\[\])|(\{\})|\[(\d+)\]|\.?"([^"]*)"|\.?([\w-]+)')
    while text != "." and at < len(text):
        found = pattern.match(text, at)
        if not found:
            raise ValueError(f"steps {text!r}")
        each, member, nth, quoted, plain = found.groups()
        steps.append(("each",) if each else ("member",) if member else ("nth", int(nth)) if nth else ("key", quoted if quoted is not None else plain))
        at = found.end()
    return steps


class Path:
    def __init__(self, text):
        inner = text.lstrip("^")
        self.out, self.is_name = len(text) - len(inner), inner == "@"
        self.steps = [] if self.is_name else steps_of(inner)


class Guard:
    def __init__(self, text):
        path, self.ask, words = re.fullmatch(r'((?:"[^"]*"|[^"?+!:~$%])*)([?+!:~$%])(.*)', text).groups()
        self.path, self.words = Path(path), [word.strip('"') for word in split(words, "|")]


class Lines:
    """What a line of a list, or beside one, says."""

    def __init__(self, key, steps, words):
        self.key, self.steps, self.parts, self.only, self.aside, self.level, self.constants, self.sides = key, steps_of(steps), [], [], [], {}, {}, []
        for word in words:
            name, value = word.split("=", 1)
            if name == "only":
                self.only.append(Guard(value))
            elif name == "aside":
                self.aside.append(Guard(value))
            elif name == "level":
                self.level.update({own.strip('"').lower(): severity for own, severity in (it.rsplit(":", 1) for it in split(value, ","))})
            elif name in CONSTANTS:
                self.constants[name] = value
            elif name in NUMBERS or name in TEXTS or name in ("primary", "posn"):
                self.parts.append((name, [Path(path) for path in split(value, "|")]))
            else:
                raise ValueError(f"no such part: {word}")

    def paths(self, name):
        return next((paths for own, paths in self.parts if own == name), [])


class Form:
    def __init__(self, name, mark):
        self.name, self.mark, self.lists = name, mark, []

    def has(self, value):
        return all(any(kind(it) in kinds for it in leads(steps, value)) or "-" in kinds and not leads(steps, value) for steps, kinds in self.mark)

    def is_open(self):
        """Whether its mark begins with any member: it is asked where no other form fits."""
        return any(steps[:1] == [("member",)] for steps, _ in self.mark)


def forms_of(text):
    """The forms that a text says. A list without a form before it is a form of its own."""
    forms = []
    for line in text.split("\n"):
        if not line.strip():
            continue
        first, *words = split(line, " ")
        key, value = first.split("=", 1)
        if key == "form":
            marks = [word.removeprefix("mark=").rsplit(":", 1) for word in words]
            forms.append(Form(value, [(steps_of(steps), kinds) for steps, kinds in marks]))
        elif key == "list":
            if not forms or not forms[-1].name:
                forms.append(Form("", []))
            forms[-1].lists.append(Lines(key, value, words))
        elif key in SIDES:
            forms[-1].lists[-1].sides.append(Lines(key, value, words))
        else:
            raise ValueError(f"no such line: {line}")
    return forms


def known_forms():
    return forms_of(table_text(os.path.join(TOP, "crates", "json_forms", "src", "table.rt")))


def xml_forms():
    """The forms of XML, and whether they are of the repository's table: those above otherwise."""
    forms = [form for form in known_forms() if form.name in XML_NAMES]
    return forms or forms_of(XML_TABLE), bool(forms)


# ---- marks

def leads(steps, value):
    """All values to which steps lead."""
    if not steps:
        return [value]
    step, rest = steps[0], steps[1:]
    if step[0] == "key":
        inner = [value.get(step[1])] if isinstance(value, Members) else []
    elif step[0] == "nth":
        inner = value[step[1]:step[1] + 1] if isinstance(value, list) else []
    elif step[0] == "each":
        inner = value if isinstance(value, list) else []
    else:
        inner = [it for _, it in value.pairs] if isinstance(value, Members) else []
    return [found for it in inner if it is not ABSENT for found in leads(rest, it)]


def form_of(value, forms, own=(), tool=None):
    """The form of a value; none if it says nothing."""
    for form in own:
        if any(it is not None for it in leads(form.lists[0].steps, value)):
            return form
    if tool:
        fit = [form for form in forms if form.name == tool][:1]
    else:
        fit = [form for form in forms if not form.is_open() and form.has(value)] or [form for form in forms if form.is_open() and form.has(value)]
    if len(fit) > 1:
        raise Refused("$", "one form")
    if not fit and not is_hollow(value):
        raise Refused("$", "form")
    return fit[0] if fit else None


# ---- spots: values with those around them, the whole value first; each with its name or index

def name_text(name):
    return "." + name if re.fullmatch(r"[A-Za-z0-9_\x80-\U0010ffff-]+", name) else f'["{name}"]'


def way(crumbs):
    return "$" + "".join(f"[{by}]" if isinstance(by, int) else name_text(by) for _, by in crumbs[1:])


def way_by(crumbs, path):
    """The way to where a path leads from a spot."""
    front = way(crumbs[:len(crumbs) - path.out]) if path.out < len(crumbs) else ""
    return front + "".join(name_text(step[1]) if step[0] == "key" else f"[{step[1]}]" for step in path.steps)


def reach(steps, crumbs):
    """The spots to which steps lead, each with what was wanted where they can't be gone."""
    value = crumbs[-1][0]
    if value is None:
        return [(crumbs, "value")]
    if not steps:
        return [(crumbs, None)]
    step, found = steps[0], None
    if step[0] == "key" and isinstance(value, Members):
        inner = value.get(step[1])
        found = [] if inner in (ABSENT, None) else [(inner, step[1])]
    elif step[0] == "nth" and isinstance(value, list):
        found = [(it, step[1]) for it in value[step[1]:step[1] + 1] if it is not None]
    elif step[0] == "each" and isinstance(value, list):
        found = [(it, at) for at, it in enumerate(value)]
    elif step[0] == "member" and isinstance(value, Members):
        found = [(it, name) for name, it in value.pairs]
    elif step[0] == "member" and value == []:
        found = []
    if found is None:
        return [(crumbs, "array" if step[0] in ("nth", "each") else "object")]
    return [spot for crumb in found for spot in reach(steps[1:], [*crumbs, crumb])]


def said(path, crumbs):
    """What is there at a path from a spot."""
    if path.out >= len(crumbs):
        return ABSENT
    value, by = crumbs[len(crumbs) - 1 - path.out]
    if path.is_name:
        return by if isinstance(by, str) else ABSENT
    for step in path.steps:
        if step[0] == "key" and isinstance(value, Members):
            value = value.get(step[1])
        elif step[0] == "nth" and isinstance(value, list) and step[1] < len(value):
            value = value[step[1]]
        else:
            return ABSENT
    return ABSENT if value is None else value


def first_said(paths, crumbs):
    return next(((path, it) for path in paths if (it := said(path, crumbs)) is not ABSENT and it != ""), (None, ABSENT))


def holds(guard, crumbs):
    it = said(guard.path, crumbs)
    if guard.ask in "?+!":
        return {"?": it is not ABSENT and it != "", "+": it is not ABSENT, "!": it is ABSENT}[guard.ask]
    text = str(it).lower() if isinstance(it, bool) else it
    fits = {":": str.__eq__, "~": str.startswith, "$": str.endswith, "%": str.startswith}[guard.ask]
    return (isinstance(text, str) and any(fits(str(text), word) for word in guard.words)) != (guard.ask == "%")


def whole(value):
    """A whole number below 2^32; none below zero; False for what is no such number."""
    if not isinstance(value, str):
        return False
    if re.fullmatch(r"-[0-9]+", value):
        return None
    return int(value) if re.fullmatch(r"[0-9]+", value) and int(value) < 2 ** 32 else False


def posn_of(text):
    """The file, the row and the column that one text says, as `a.go:26:2` or `a.go:26`; none if its numbers aren't such."""
    found = POSN.fullmatch(text)
    if not found or any(it is not None and whole(it) is False for it in found.groups()[1:]):
        return None
    return dict(file=found[1] or None, line=whole(found[2]), column=found[3] and whole(found[3]))


def fault(lines, crumbs):
    """The first part that isn't as it has to be."""
    for name, paths in lines.parts:
        path, it = first_said(paths, crumbs)
        if path is None:
            continue
        if name in NUMBERS and whole(it) is False:
            return way_by(crumbs, path), "number"
        if (name in TEXTS or name == "posn") and not isinstance(it, str):
            return way_by(crumbs, path), "text"
        if name == "posn" and not posn_of(it):
            return way_by(crumbs, path), "number"
    return None


def text_of(lines, name, crumbs):
    it = first_said(lines.paths(name), crumbs)[1]
    return None if it is ABSENT else str(it)


def number_of(lines, name, crumbs):
    """A number, and the number of the first one: those whose key ends with 0 count from 0."""
    paths = lines.paths(name)
    first = 1 if paths or not lines.paths(name + "0") else 0
    it = first_said(paths or lines.paths(name + "0"), crumbs)[1]
    return None if it is ABSENT else whole(it), first


def place_of(lines, crumbs):
    """Where an element is: rows and columns from 1, or offsets; an end before its start isn't there."""
    numbers = {name: number_of(lines, name, crumbs)[0] for name in NUMBERS}
    first_line, first_column = number_of(lines, "line", crumbs)[1], number_of(lines, "column", crumbs)[1]
    numbers["line"], numbers["column"] = number_of(lines, "line", crumbs)[0], number_of(lines, "column", crumbs)[0]
    file, posn = text_of(lines, "file", crumbs), text_of(lines, "posn", crumbs)
    if posn is not None:
        posn, first_line, first_column = posn_of(posn), 1, 1
        file, numbers["line"], numbers["column"] = posn["file"], posn["line"], posn["column"]
    place = dict(file=file, line=None, column=None, end_line=None, end_column=None, offsets=None, unit=lines.constants.get("unit", "characters"))
    if numbers["offset"] is not None:
        end = numbers["end_offset"] if numbers["end_offset"] is not None else numbers["offset"] + (numbers["length"] or 0)
        place["offsets"] = (numbers["offset"], max(numbers["offset"], end))
    above = lambda number, first: None if number is None or number < first else number - first + 1
    line, column, end_line = above(numbers["line"], first_line), above(numbers["column"], first_column), above(numbers["end_line"], first_line)
    if line is None:
        return place
    place.update(line=line, column=column)
    behind = 1 if lines.constants.get("end") == "last" else 0
    end_column = above(None if numbers["end_column"] is None else numbers["end_column"] + behind, first_column)
    if column is not None and end_column is not None:
        end = (end_line or line, end_column)
    elif column is not None and numbers["length"] is not None:
        end = (line, column + numbers["length"])
    else:
        end = (end_line, None)
    starts_first = end[0] is not None and (end[0] > line or end[0] == line and (column is None or end[1] is not None and end[1] >= column))
    if starts_first:
        place.update(end_line=end[0], end_column=end[1])
    return place


def severity_of(lines, crumbs):
    word = text_of(lines, "severity", crumbs)
    if word is None:
        return lines.constants.get("default", "error")
    word = re.sub("[A-Z]", lambda it: it[0].lower(), word)
    if lines.constants.get("as") == "letter":
        word = word.encode()[:1].decode("utf-8", "replace")
    return lines.level.get(word) or WORDS.get(word) or "error"


def beside(sides, crumbs, told):
    """What is said beside a finding; what is wrong is told."""
    found = []
    for side in sides:
        for spot, wanted in reach(side.steps, crumbs):
            if wanted is None and not all(holds(guard, spot) for guard in side.only):
                continue
            wrong = (way(spot), wanted) if wanted else fault(side, spot)
            if wrong:
                told.append(wrong)
            else:
                found.append(dict(key=side.key, place=place_of(side, spot), text=text_of(side, "text", spot)))
    return found


def unit_by(form, lines, code):
    """What columns count: for Checkstyle's form by how the code begins, as it is written by several tools."""
    own = {"com.puppycrawl.": "cells8utf16", "eslint.rules.": "utf16"} if form.name == "checkstyle" else {}
    return next((unit for begins, unit in own.items() if (code or "").startswith(begins)), lines.constants.get("unit", "characters"))


def finding_of(form, lines, crumbs, message):
    told = []
    it = dict(form=form.name, place=place_of(lines, crumbs), severity=severity_of(lines, crumbs), scope=lines.constants.get("scope"), message=message,
              **{name: text_of(lines, name, crumbs) for name in ("code", "help", "note", "url")}, sides=beside(lines.sides, crumbs, told), told=told)
    it["place"]["unit"] = unit_by(form, lines, it["code"])
    place = next((side for side in it["sides"] if side["key"] == "place"), None)
    own_file = it["place"]["file"]
    if place:
        it["place"], it["place_text"] = dict(place["place"]), place["text"]
        it["place"]["file"] = it["place"]["file"] or own_file
    return it


def read_value(form, value):
    """The findings of a value, and what is told and is no finding: texts, or a way and what was wanted."""
    found, told = [], []
    for lines in form.lists:
        for crumbs, wanted in reach(lines.steps, [(value, None)]):
            if wanted == "value":
                told.append((way(crumbs), "value"))
                continue
            if wanted:
                raise Refused(way(crumbs), wanted)
            if not all(holds(guard, crumbs) for guard in lines.only):
                continue
            wrong = fault(lines, crumbs)
            if wrong:
                raise Refused(*wrong)
            message = text_of(lines, "message", crumbs) or text_of(lines, "code", crumbs)
            if message is None:
                raise Refused(way(crumbs), "message")
            if any(holds(guard, crumbs) for guard in lines.aside):
                told.append(message)
            else:
                found.append(finding_of(form, lines, crumbs, message))
    return found, told


def told_lines(head, found, told):
    """What is printed beside the findings of a value: what is no finding, and then what is wrong beside findings."""
    skipped = lambda it: harmless(f"girzohal: {head}{it[0]}: wanted {WANTED[it[1]]}; skipped")
    return [harmless(it, "\t\n") if isinstance(it, str) else skipped(it) for it in told] + [skipped(it) for own in found for it in own["told"]]


# ---- inputs

def cut(text):
    """The values, with their rows, and the other lines: a value starts at `{`, or at `[` before `{`, `"` or `]`, and ends where its brackets close."""
    pieces, at = [], 0
    while (solid := re.compile(r"[ \t\r\n]*").match(text, at).end()) < len(text):
        if not re.compile(r'\{|\[[ \t\r\n]*[{"\]]').match(text, solid):
            at = text.find("\n", solid + 1)
            at = len(text) if at < 0 else at
            pieces.append((None, text[solid:at]))
            continue
        deep, at = 0, solid
        for token in re.compile(r'"(?:[^"\\]|\\.)*"?|.', re.S).finditer(text, solid):
            deep += token[0] in ("{", "[")
            deep -= token[0] in ("}", "]")
            at = token.end()
            if deep == 0:
                break
        if deep:
            row = text.count("\n", 0, solid) + 1
            raise Refused(f"line {row}, column {len(text[text.rfind(chr(10), 0, solid) + 1:solid].encode()) + 1}", "cut")
        pieces.append((text.count("\n", 0, solid) + 1, text[solid:at]))
    return pieces


def read_json(text, forms, own=(), tool=None):
    """The findings of an input, what is told of it, and its other lines."""
    pieces = cut(text.removeprefix("\ufeff"))
    values = []
    for row, body in pieces:
        if row is not None:
            try:
                value = parse(body)
            except (ValueError, RecursionError):
                raise Refused("line", "JSON") from None
            if depth(value) > 127:
                raise Refused("line", "JSON")
            values.append((row, value))
    found, told = [], []
    for row, value in values:
        head = f"line {row}: " if len(values) > 1 else ""
        try:
            form = form_of(value, forms, own, tool)
            more = read_value(form, value) if form else ([], [])
        except Refused as e:
            raise Refused(head + e.where, e.wanted) from None
        told += told_lines(head, *more)
        found += more[0]
    return found, told, [body for row, body in pieces if row is None]


def is_xml(text):
    return re.match(r"\ufeff?[ \t\r\n]*<(\?xml|%s)" % "|".join(ROOTS), text) is not None


def xml_value(text):
    """An element is an object: its attributes, its child elements in arrays by name, and its own text as `#text`."""
    root, open_elements = [], []

    def begin(name, attributes):
        if len(open_elements) == 127 or len(attributes) > 64 or not all(re.match("[A-Za-z_]", it) for it in (name, *attributes)):
            raise Refused("line", "XML")
        open_elements.append((name, dict(attributes), {}, []))

    def text_in(data):
        open_elements[-1][3].append(data)

    def end(_):
        name, attributes, inner, texts = open_elements.pop()
        pairs = [(own, value) for own, value in attributes.items() if own not in inner] + list(inner.items())
        own = "".join(texts).strip(" \t\r\n")
        element = Members(pairs + ([("#text", own)] if own else []))
        if open_elements:
            open_elements[-1][2].setdefault(name, []).append(element)
            if len(open_elements[-1][2]) > 64:
                raise Refused("line", "XML")
        else:
            root.append(Members([(name, element)]))

    def no_doctype(*_):
        raise Refused("line", "XML")

    if re.search("[\x00-\x08\x0b\x0c\x0e-\x1f\ufffe\uffff]", text):
        raise Refused("line", "XML")
    declared = re.match(r"\ufeff?[ \t\r\n]*<\?xml[ \t\r\n](.*?)\?>", text, re.S)
    encoding = re.search(r"encoding[ \t\r\n]*=[ \t\r\n]*(?:\"([^\"<]*)\"|'([^'<]*)')", declared[1]) if declared else None
    if encoding and (encoding[1] or encoding[2] or "").lower() not in ("utf-8", "us-ascii", "ascii"):
        raise Refused("line", "XML")
    # (of instructions, the declaration too, nothing counts but the encoding)
    text = re.sub(r"<!--.*?-->|<!\[CDATA\[.*?\]\]>|<\?.*?\?>", lambda it: "<?x?>" if it[0].startswith("<?") else it[0], text.removeprefix("\ufeff").lstrip(" \t\r\n"), flags=re.S)
    parser = xml.parsers.expat.ParserCreate("utf-8")
    parser.StartElementHandler, parser.EndElementHandler, parser.CharacterDataHandler, parser.StartDoctypeDeclHandler = begin, end, text_in, no_doctype
    try:
        parser.Parse(text.encode("utf-8", "surrogatepass"), True)
    except xml.parsers.expat.ExpatError:
        raise Refused("line", "XML") from None
    return root[0]


def read_xml(text, forms):
    value = xml_value(text)
    form = form_of(value, forms)
    found, told = read_value(form, value)
    return found, told_lines("", found, told), []


# ---- what is printed

def harmless(text, layout=""):
    """A text that drives no terminal; `layout` has the control characters that may be in it."""
    def tame(char):
        if char in layout:
            return char
        if char < " " or char == "\x7f":
            return "?"
        return "\u00bf" if "\x80" <= char <= "\x9f" else "\ufffd" if "\u202a" <= char <= "\u202e" or "\u2066" <= char <= "\u2069" else char
    return "".join(map(tame, text))


# ---- spans in sources

def columns(unit, text):
    """For each character of a row how many columns are before it, and then how many the row has."""
    counts, at = [], 0
    for char in text:
        counts.append(at)
        if unit == "bytes":
            at += len(char.encode())
        elif unit == "characters":
            at += 1
        elif unit == "utf16" or unit == "cells8utf16" and char != "\t":
            at += 1 + (char > "\uffff")
        elif char == "\t":
            stop = 4 if unit == "cells4" else 8
            at += stop - at % stop
        else:
            at += 1
    return counts + [at]


def spot_in(rows, line, column, unit):
    """The byte of a row and a column, from 1: in a row that has fewer columns, its end."""
    before = sum(len(row.encode()) + 1 for row in rows[:line - 1])
    row = rows[line - 1]
    counts = columns(unit, row)
    at = max((at for at, count in enumerate(counts) if count <= column - 1), default=0)
    return before + len(row[:at].encode())


def span_of(place, text):
    """The bytes of a place in a text whose rows end with LF; none if its row isn't there."""
    if place["offsets"] and place["unit"] == "bytes":
        cut_at = lambda at: len(text.encode()[:at].decode("utf-8", "ignore").encode())
        return tuple(map(cut_at, place["offsets"]))
    rows = text.split("\n")
    if place["line"] is None or place["line"] > len(rows):
        return None
    row, start_of = rows[place["line"] - 1], sum(len(it.encode()) + 1 for it in rows[:place["line"] - 1])
    if place["column"] is None:
        inner = row.strip(" \t")
        front = len(row.encode()) - (len(row.lstrip(" \t").encode()) if inner else 0)
        return start_of + front, start_of + max(front, len(row.rstrip(" \t").encode()))
    start = spot_in(rows, place["line"], place["column"], place["unit"])
    if place["end_line"] is not None and place["end_line"] <= len(rows):
        end = spot_in(rows, place["end_line"], place["end_column"] or 2 ** 32, place["unit"])
        return start, max(start, end)
    rest = row.encode()[start - start_of:].decode()
    word = re.match(r"\w+", rest)
    return start, start + len((word[0] if word else rest[:1]).encode())
