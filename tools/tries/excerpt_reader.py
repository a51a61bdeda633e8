#!/usr/bin/env python3
"""A second reader of what tools print below a finding, to hold the program against: drawings with their labels, notes, helps,
suggestions and locations.

usage: excerpt_reader.py < OUTPUT        prints what is read below each finding

It knows nothing of the crates but what the pages of `excerpt_lines`, `excerpt_blocks`, `excerpts` and `excerpt_rows` say. A body is
read as a whole, or kept. Columns are characters of the printed rows, from 0."""
import re
import sys
import unicodedata
from dataclasses import dataclass, field

BLANKS = " \t"
BARS = "|│┃·┆"
CLASSES = ("^~", "-", "+", "━", "─┬", "▲")
FIRST = "^━▲┬"
FRAME = "╭╮╰╯─━╴│┃·┆‡⋮╎.:|+-><╶"
ARROWS = ("--> ", "::: ", "╭▸ ", "⸬  ", "┌─ ", "╭─[", ",-[")
WORDS = "note|help|hint|warning|error|info|suggestion|advice"
KIND = re.compile(rf"(?P<word>(?i:{WORDS})):(?= |\Z)")
NUMBER = r"(?:0|[1-9][0-9]*)"
GUTTER = re.compile(rf">?[ \t]*(?P<number>[0-9]*)(?P<gap>[ \t]*)(?:(?P<bar>[{BARS}])(?= |\Z)|(?P<corner>╰╴)|(?P<sign>[+~-])(?= |\Z))")
INSERTED = re.compile(r">?[ \t]*\+\+\+ \|\+")
LED = re.compile(rf"(?:= |├ |╰ ){KIND.pattern}")
CAPITAL = re.compile(r"(?P<word>Note|Help):(?= )")
RUNS = [re.compile(f"[{re.escape(of)}]+") for of in CLASSES]
LINK = re.compile(r"_+")
HOOK = re.compile(r"(?:[╰├└]─+|`-+)(?= |\Z)")
MOST_ITEMS = 500


ALONE = ('fix-it:"', "In file included from ")


class Refused(Exception):
    """A line of a body isn't read."""


def width(char):
    """How many cells a character takes, but a tab."""
    if unicodedata.category(char) in ("Mn", "Me", "Cf", "Cc"):
        return 0
    return 2 if unicodedata.east_asian_width(char) in "WF" else 1


def cells_of(line):
    """The cell in which each character begins, and the one after the last."""
    at, cells = 0, []
    for char in line:
        cells.append(at)
        at += 8 - at % 8 if char == "\t" else width(char)
    return [*cells, at]


def indent(line):
    return len(line) - len(line.lstrip(BLANKS))


def is_blank(line):
    return indent(line) == len(line)


def class_of(char):
    return next((number for number, of in enumerate(CLASSES) if char in of), None)


@dataclass
class Gutter:
    number: int | None
    sign: str  # "|" for a bar
    bar: int
    text: int


def number_of(digits):
    """A number without zeros in front, of 32 bits."""
    return int(digits) if re.fullmatch(NUMBER, digits) and int(digits) < 2 ** 32 else None


def gutter_of(line):
    it = GUTTER.match(line)
    if not it:
        return None
    digits, bar = it["number"], it.end("gap")
    if digits and number_of(digits) is None or it["sign"] and not (digits and len(it["gap"]) == 1):
        return None
    return Gutter(number_of(digits) if digits else None, it["sign"] or "|", bar, min(bar + 2, len(line)))


def place_of(line):
    """The place of the name, the name, row and column of a location on a line of its own: one or two numbers, all that there are."""
    start = indent(line)
    arrow = next((it for it in ARROWS if line.startswith(it, start)), None)
    if arrow is None:
        return None
    begin = start + len(arrow) + re.match(" *", line[start + len(arrow):]).end()
    name, numbers = line[begin:].rstrip(" :]─"), []
    while len(numbers) < 2:
        it = re.fullmatch(r"(.*):([0-9]+)", name, re.DOTALL)
        if not it or number_of(it[2]) is None:
            break
        name, numbers = it[1], [number_of(it[2]), *numbers]
    return (begin, name, *numbers, None)[:4] if numbers and name.strip(BLANKS) == name != "" else None


@dataclass
class Note:
    form: str  # led, margin, indented
    word: str
    text: int


def note_of(line):
    start = indent(line)
    led = LED.match(line, start)
    if led:
        return Note("led", led["word"].lower(), led.end() + 1)
    it = re.match(rf">?[ \t]*(?:[{BARS}](?= |\Z)|╰╴)", line)
    if it:
        text = min(re.match(r">?[ \t]*", line).end() + 2, len(line))
        led = LED.match(line, text) or CAPITAL.match(line, text)
        if led:
            return Note("led", led["word"].lower(), led.end() + 1)
    if start and line.startswith("= ", start):
        return Note("led", "note", start + 2)
    for form, at in (("margin", 0), ("indented", 2)):
        it = KIND.match(line, at)
        if it and (at == 0 or start == at):
            return Note(form, it["word"].lower(), it.end() + 1)
    return None


@dataclass
class Line:
    """A line of a body: its kind, and what comes of that."""
    text: str
    kind: str
    gutter: Gutter | None = None
    place: tuple | None = None
    note: Note | None = None
    after: int = 0  # of an inserted row: where its text begins; of a location: its name

    def bar(self):
        return self.gutter.bar if self.gutter else None


def line_of(text):
    if is_blank(text):
        return Line(text, "empty")
    place, note = place_of(text), note_of(text)
    if place:
        return Line(text, "place", place=place[1:], after=place[0])
    if note:
        return Line(text, "note", note=note)
    gutter = gutter_of(text)
    if gutter:
        kind = "row" if gutter.number is not None else "space" if is_blank(text[gutter.text:]) else "marks"
        return Line(text, kind, gutter=gutter)
    inserted = INSERTED.match(text)
    if inserted:
        return Line(text, "inserted", after=inserted.end())
    if not text.strip(" \t^~-+_=") and re.search(r"[\^~]", text):
        return Line(text, "loose")
    return Line(text, "plain" if text.strip(FRAME + BLANKS) else "frame")


# ---- items


def run_at(line, at):
    """Where the run of marks ends that begins here."""
    number = class_of(line[at]) if at < len(line) else None
    end = RUNS[number].match(line, at).end() if number is not None else at
    if number is None or end < len(line) and line[end] not in BLANKS + BARS + "_" and class_of(line[end]) is None:
        return None
    return end


def link_at(line, begin, at):
    it = LINK.match(line, at)
    if not it or it.end() == len(line):
        return None
    return it.end() if line[it.end()] in "^-" + BARS or at > begin and line[at - 1] in BARS else None


def marks_again(line, at):
    number = class_of(line[at])
    end = RUNS[number].match(line, at).end() if number is not None else at
    return number is not None and (end == len(line) or line[end] in BLANKS)


def text_end(line, at, hung):
    """A text ends where the line does, or before blanks and a place of `hung`, or two blanks and marks."""
    for gap in re.compile(r"[ \t]+|\Z").finditer(line, at + 1):
        if gap.end() == len(line) or gap.end() in hung or gap.end() - gap.start() >= 2 and marks_again(line, gap.end()):
            return gap.start()
    return len(line)


def items_of(line, begin, hung):
    """The items of a line of marks: (part, start, end)."""
    at, items = begin, []
    while at < len(line):
        if line[at] in BLANKS:
            at += 1
            continue
        run, link, hook = run_at(line, at), link_at(line, begin, at), HOOK.match(line, at)
        if run is not None:
            items.append(("mark", at, run))
        elif line[at] in BARS:
            items.append(("bar", at, at + 1))
        elif link is not None:
            items.append(("link", at, link))
        elif hook:
            items.append(("hook", at, hook.end()))
        else:
            items.append(("text", at, text_end(line, at, hung)))
        at = items[-1][2]
    return items


# ---- blocks


@dataclass
class Row:
    number: int | None
    sign: str
    line: str
    at: int  # where its text begins
    gap: int = 0
    items: int = 0
    marks: list = field(default_factory=list)
    hangs: list = field(default_factory=list)  # (mark, cell, beside)

    def __post_init__(self):
        self.cells = cells_of(self.line)

    def text(self):
        return self.line[self.at:]

    def over(self, cell):
        """The place of the character over a cell; after the row each cell is one more."""
        at = next((at for at, end in enumerate(self.cells[1:]) if cell < end), None)
        return len(self.line) + cell - self.cells[-1] if at is None else at

    def column(self, cell):
        return max(self.over(cell) - self.at, 0)

    def end_column(self, cell):
        at = self.over(max(cell - 1, 0)) + 1
        while at < len(self.line) and self.line[at] != "\t" and width(self.line[at]) == 0:
            at += 1
        return max(at - self.at, 0)

    def holder(self, cell):
        over = [mark for mark in self.marks if mark.cell <= cell < mark.end_cell]
        return next((mark for mark in over if not mark.texts), over[0] if over else None)


@dataclass
class Mark:
    cell: int
    end_cell: int
    start: int
    end: int
    chars: str
    texts: list = field(default_factory=list)  # (cell, beside, column, text)
    begun: tuple | None = None  # (row, column)

    def first(self):
        return any(char in FIRST for char in self.chars)


@dataclass
class Opening:
    row: Row
    column: int
    number: int | None  # the class that it began with


@dataclass
class Label:
    row: Row
    start: int
    end_row: Row
    end: int
    primary: bool
    text: str | None


class Block:
    """Rows and what is drawn below them."""

    def __init__(self):
        self.rows, self.opens, self.inserts, self.gap, self.labels, self.said = [], {}, [], 0, [], False

    def row(self, line, number, sign, text, margin):
        row = Row(number, sign, line, min(text, len(line)), self.gap)
        self.rows.append(row)
        for at in range(min(margin, row.at), row.at):
            if line[at] == "/" and at not in self.opens:
                self.opens[at] = Opening(row, indent(row.text()), None)
            elif line[at] != " " and not (line[at] == "|" and at in self.opens):
                raise Refused("margin")

    def marks(self, line, begin):
        if not self.rows:
            raise Refused("marks without a row")
        row, cells = self.rows[-1], cells_of(line)
        hung = {cell for mark, cell, beside in row.hangs if not any(text[0] == cell for text in mark.texts)}
        places = {at for at in range(len(line)) if cells[at] in hung}
        begin = min(begin, len(line))
        link = last = before = None
        for part, start, end in items_of(line, begin, places):
            row.items += 1
            if row.items > MOST_ITEMS or link is not None and part != "mark":
                raise Refused("items, or a link without a mark")
            cell, touched = cells[start], before == ("mark", start)
            before, was, last = (part, end), last, None
            if part == "mark":
                mark = self.mark(row, cell, cells[end], line[start:end])
                last = self.linked(row, mark, line, link, end - start) if link is not None else self.kept(row, mark)
                link = None
            elif part == "link":
                link = start
            elif part == "bar" and end >= row.at:
                holder = row.holder(cell)
                if holder is None:
                    raise Refused("a bar below no mark")
                row.hangs.append((holder, cell, False))
            elif part == "hook":
                last = row.holder(cell)
                if last is None and line[start:end] != "`-":
                    raise Refused("a hook below no mark")
                last = last or self.kept(row, self.mark(row, cell, cell + 1, "^"))
            elif part == "text":
                self.text(row, was, touched, cell, line[start:end])
        if link is not None:
            raise Refused("a link at the end")

    def mark(self, row, cell, end_cell, chars):
        return Mark(cell, end_cell, row.column(cell), row.end_column(end_cell), chars)

    def kept(self, row, mark):
        if mark.cell < row.cells[row.at]:
            raise Refused("a mark left of its row")
        row.marks.append(mark)
        return mark

    def linked(self, row, mark, line, link, count):
        """A span of rows begins or ends at a mark."""
        at, number = link - 1, class_of(mark.chars[0])
        if link == 0 or count != 1:
            raise Refused("a link before more than a mark")
        if line[at] == " " and at not in self.opens and mark.cell >= row.cells[row.at]:
            self.opens[at] = Opening(row, mark.start, number)
            return None
        opening = self.opens.get(at)
        if line[at] != "|" or opening is None or opening.number not in (None, number):
            raise Refused("a link of no span")
        del self.opens[at]
        mark.begun = (opening.row, opening.column)
        return self.kept(row, mark)

    def text(self, row, last, touched, cell, text):
        if touched:
            raise Refused("a text that touches marks")
        taker = next((hang for hang in row.hangs if hang[1] == cell), None)
        column = row.column(cell)
        self.said = True
        if last is not None and not last.texts:
            row.hangs.append((last, cell, True))
            last.texts.append((cell, True, column, text))
        elif taker:
            taker[0].texts.append((cell, taker[2], column, text))
        elif last is None and any(row.marks for row in self.rows):
            self.inserts.append((row, column, text))
        else:
            raise Refused("a text of nobody")

    def close(self, spot):
        if self.opens:
            raise Refused("an open span")
        strong = any(mark.first() for row in self.rows for mark in row.marks)
        for row in self.rows:
            for mark in drawn_over(row, spot):
                begun = mark.begun or (row, None)
                for start, texts in parts_of(mark):
                    primary = mark.first() or not strong and "~" in mark.chars
                    self.labels.append(Label(begun[0], start if begun[1] is None else begun[1], row, mark.end, primary, "\n".join(texts) if texts else None))


def drawn_over(row, spot):
    """The marks of a row: one that another is drawn over is whole again, and `^` goes on from `-` at the finding's place."""
    begins = lambda mark: row.number is not None and spot == (row.number, mark.start + 1)
    marks, at = [], 0
    while at < len(row.marks):
        three = row.marks[at:at + 3]
        if len(three) == 3 and are_joined(*three) and (three[0].texts or begins(three[0])) and not three[2].texts:
            first, over, covered = three
            first.end, first.end_cell = covered.end, covered.end_cell
            marks += [first, over]
            at += 3
        else:
            marks.append(three[0])
            at += 1
    for one, other in zip(marks, marks[1:]):
        if one.end_cell == other.cell and one.chars[0] == "-" and "^" in other.chars and begins(one) and not one.begun and not other.begun:
            other.start, other.cell = one.start, one.cell
    return marks


def are_joined(one, over, other):
    touch = one.end_cell == over.cell and over.end_cell == other.cell
    plain = not (one.begun or over.begun or other.begun)
    return touch and plain and class_of(one.chars[0]) == class_of(other.chars[0]) != class_of(over.chars[0])


def parts_of(mark):
    """One label of a mark; or one for each cell at which texts hang from it, in the order in which these texts are printed."""
    hung = list(dict.fromkeys(cell for cell, beside, _, _ in mark.texts if not beside))
    if len(hung) < 2:
        return [(mark.start, [text for *_, text in mark.texts])]
    parts, least = [], min(hung)
    for cell in hung:
        mine = [it for it in mark.texts if it[0] == cell and not it[1] or it[1] and cell == least]
        column = next(it[2] for it in mine if not it[1])
        parts.append((mark.start if cell == least else column, [text for *_, text in mine]))
    return parts


# ---- bodies


@dataclass
class Part:
    kind: str  # empty, place, note, goes on, frames, source, loose, suggestion, kept
    first: int
    lines: list
    block: Block | None = None
    below: int = 0  # of a line that goes on with a note: where its text begins


def is_bare(line):
    """Blanks and bars alone."""
    return not line.strip(BLANKS + "|│")


@dataclass
class Excerpt:
    parts: list

    def drawings(self, name):
        """The drawings of rows of a source, each with the name of its file, which is the finding's up to a place in another."""
        there = name
        for part in self.parts:
            if part.kind == "place":
                there = part.lines[0].place[0]
            elif part.kind in ("source", "loose"):
                yield part.block, there

    def blocks(self):
        return [block for block, _ in self.drawings("")]

    def said(self, own, shown):
        """The lines of notes and of helps, and those that are kept. `own` is the finding's location; a drawing that `shown` doesn't have
        is told as it is."""
        said, to = {"note": [], "help": [], "kept": []}, "help"
        for part in self.parts:
            texts = [line.text for line in part.lines]
            if part.kind == "place" and part.lines[0].place != own:
                said["note"].append("at " + texts[0][part.lines[0].after:])
            elif part.kind == "note":
                word = part.lines[0].note.word
                to = "help" if word == "help" else "note"
                said[to].append(("" if word in said else word + ": ") + texts[0][part.lines[0].note.text:])
            elif part.kind == "goes on":
                said[to].append(texts[0][part.below:])
            elif part.kind == "kept":
                said["kept"] += texts
            elif part.kind == "suggestion":
                said[to] += [text for text in texts if not is_bare(text)]
            elif part.block and not any(part.block is block for block in shown):
                said["note"] += [text for text in texts if not is_bare(text)]
        return {**said, "kept": outdented(said["kept"])}


def outdented(lines):
    """Lines without the spaces that all of them begin with."""
    spaces = min((len(line) - len(line.lstrip(" ")) for line in lines), default=0)
    return [line[spaces:] for line in lines]


def kept(lines):
    """What is shown of a body that is kept as a whole."""
    return outdented([line for line in lines if not is_bare(line)])


class Body:
    """The lines of a body, cut into parts. `spot` is the row and the column of the finding, from 1."""

    def __init__(self, spot, lines):
        self.spot, self.lines, self.parts = spot, [line_of(line) for line in lines], []
        self.below, self.under, self.announced, self.drawn, self.shown = None, False, False, False, False

    def read(self):
        at = 0
        while at < len(self.lines):
            part = self.part(at)
            self.parts.append(part)
            at += len(part.lines)
        return Excerpt(self.parts)

    def take(self, kind, at, count=1):
        return Part(kind, at, self.lines[at:at + count])

    def part(self, at):
        line = self.lines[at]
        if line.text.startswith(ALONE):
            self.below = None
            return self.take("kept", at)
        if self.below is not None and self.goes_on(line):
            return Part("goes on", at, [line], below=self.below)
        self.below = None
        if line.kind == "empty":
            self.drawn = False
            return self.take("empty", at)
        if line.kind == "place":
            self.under, self.announced, self.drawn = False, True, False
            return self.take("place", at)
        if line.kind == "note" and (line.note.form != "indented" or self.announced):
            self.below, self.under, self.drawn = line.note.text, line.note.form != "led", False
            return self.take("note", at)
        return self.drawing(at) or self.loose(at)

    def goes_on(self, line):
        if line.kind == "empty":
            return line.text != ""
        drawn = line.kind in ("row", "marks", "space", "inserted")
        return indent(line.text) >= self.below and not (self.under and drawn)

    def in_block(self, line):
        if line.kind in ("row", "marks", "space", "inserted", "frame"):
            return True
        return self.under and (line.kind in ("loose", "plain") or line.kind == "note" and line.note.form == "indented")

    def drawing(self, at):
        end = at
        while end < len(self.lines) and self.in_block(self.lines[end]) and not self.lines[end].text.startswith(ALONE):
            end += 1
        if end == at:
            if self.drawn:
                raise Refused("a line right after a drawing")
            return None
        lines = self.lines[at:end]
        signed = any(line.kind == "inserted" or line.kind == "row" and line.gutter.sign != "|" for line in lines)
        kind = "suggestion" if self.under or signed else "frames" if all(line.kind in ("space", "frame") for line in lines) else "source"
        if kind == "source" and len({line.bar() for line in lines} - {None}) > 1:
            raise Refused("bars in several columns")
        part = self.take(kind, at, end - at)
        self.drawn = True
        if kind == "source":
            self.shown, part.block = True, self.source(lines)
        elif kind == "suggestion":
            part.block = self.suggestion(part)
        return part

    def source(self, lines):
        links = [self.margin_link(line) for line in lines if line.kind == "marks"]
        margin = max([0, *(link + 1 for link in links if link is not None)])
        block = Block()
        for line in lines:
            if line.kind == "row":
                block.row(line.text, line.gutter.number, line.gutter.sign, max(line.gutter.text, margin), line.gutter.text)
            elif line.kind == "marks":
                block.marks(line.text, line.gutter.text)
        block.close(self.spot)
        return block

    def margin_link(self, line):
        at = re.compile(r"[ |]*").match(line.text, line.gutter.text).end()
        return at if at < len(line.text) and link_at(line.text, line.gutter.text, at) is not None else None

    def suggestion(self, part):
        block = Block()
        for at, line in enumerate(part.lines, part.first):
            text, start = line.text, indent(line.text)
            bare = re.compile(r"[+-](?= |\Z)").match(text, start) if start else None
            if line.kind == "row":
                block.row(text, line.gutter.number, line.gutter.sign, line.gutter.text, line.gutter.text)
            elif line.kind == "marks":
                block.marks(text, line.gutter.text)
            elif line.kind == "space":
                block.gap = at
            elif line.kind == "inserted":
                block.row(text, None, "+", line.after, line.after)
            elif bare:
                block.row(text, None, bare[0], start + 2, start + 2)
            elif line.kind == "frame":
                if "." in text:
                    block.row(text, None, "|", start, start)
            else:
                raise Refused("a line of no suggestion")
        if block.said or any(row.hangs for row in block.rows):
            raise Refused("a suggestion with texts")
        block.close(self.spot)
        return block

    def loose(self, at):
        """A row without a gutter and the marks below it; or a line that is kept."""
        line = self.lines[at]
        if line.kind == "loose":
            raise Refused("marks without a row")
        end = at + 1
        while end < len(self.lines) and self.lines[end].kind == "loose":
            end += 1
        if end == at + 1 or self.shown or self.spot[0] is None:
            return self.take("kept", at)
        while self.spot[1] is not None and end < len(self.lines) and indent(self.lines[end].text) and not (end + 1 < len(self.lines) and self.lines[end + 1].kind == "loose"):
            end += 1
        part = self.take("loose", at, end - at)
        part.block, self.shown = Block(), True
        part.block.row(line.text, self.spot[0], "|", 0, 0)
        for below in part.lines[1:]:
            part.block.marks(below.text, 0)
        part.block.close(self.spot)
        return part


def read(spot, lines):
    """What a body says; None if it is kept as a whole."""
    try:
        return Body(spot, lines).read()
    except Refused:
        return None


# ---- printed rows over the source's

TABS = (lambda cells, size: 8 - cells % 8, lambda cells, size: 4, lambda cells, size: 1, lambda cells, size: 2, lambda cells, size: 4 - cells % 4, lambda cells, size: 8 - size % 8)
HIDDEN = (lambda char: "", lambda char: chr(0x2400 + ord(char)) if ord(char) < 32 else "\ufffd", lambda char: f"<U+{ord(char):04X}>", lambda char: char)
LONGEST = 0x1_0000


def expansion(row, tab, hidden):
    """A row as it is printed, and for each character of that the row's character that it is printed for."""
    text, places, cells, size = "", [], 0, 0
    for at, char in enumerate(row):
        if char == "\t":
            shown = " " * tab(cells, size)
        else:
            shown = hidden(char) if unicodedata.category(char) in ("Cc", "Cf") else char
        text, places = text + shown, places + [at] * len(shown)
        cells, size = cells + sum(map(width, shown)), size + len(shown.encode())
    return text, places


def alignment_of(printed, row):
    """For a column of a printed row, the character of the source's row; None if it isn't printed there."""
    if len(printed) > LONGEST or len(row) > LONGEST:
        return None
    if printed == row:
        return lambda column: min(column, len(row))
    for tab in TABS:
        for hidden in HIDDEN:
            text, places = expansion(row, tab, hidden)
            shift = shift_over(printed, text)
            if shift is not None:
                return lambda column: [*places, len(row)][min(max(column + shift, 0), len(places))]
    return None


def shift_over(printed, text):
    """How far a printed row's columns are from those of a text: it is that but for blanks in front and at the end, or a part of it."""
    spare = max(indent(printed) - indent(text), 0)
    row = printed[spare:]
    if text.startswith(row) and is_blank(text[len(row):]):
        return -spare
    ink = printed.strip(BLANKS)
    core = ink.strip(".")
    front = len(ink) - len(ink.lstrip("."))
    back = len(ink) - len(ink.rstrip("."))
    if not core or front < 3 and back < 3:
        return None
    places = [at for at in range(len(text) - len(core) + 1) if text.startswith(core, at)]
    return places[0] - indent(printed) - front if len(places) == 1 else None


def place_in_source(label, rows):
    """The rows and columns of a label in the source's rows, or None where these aren't printed."""
    ends = []
    for row, column in ((label.row, label.start), (label.end_row, label.end)):
        if row.number is None or not 0 < row.number <= len(rows):
            return None
        aligned = alignment_of(row.text(), rows[row.number - 1])
        if aligned is None:
            return None
        ends += [row.number, aligned(column)]
    return tuple(ends)


def main():
    import line_reader
    reader = line_reader.Reader(sys.stdin.buffer.read())
    for _, it, at, end in reader.pieces():
        if it is None:
            continue
        lines = [line.decode(errors="replace") for line in reader.lines[at:end]]
        print(lines[0])
        excerpt = read((it["line"] or None, it["column"] if it["line"] else None), lines[1:])
        if excerpt is None:
            print("    kept as a whole")
            continue
        for label in (label for block in excerpt.blocks() for label in block.labels):
            print(f"    {'^' if label.primary else '-'} {label.row.number}:{label.start}..{label.end_row.number}:{label.end} {label.text or ''}")
        for row, column, text in (insert for block in excerpt.blocks() for insert in block.inserts):
            print(f"    + {row.number}:{column} {text}")
        said = excerpt.said((it["name"].decode(errors="replace"), it["line"], it["column"]), excerpt.blocks())
        for word, texts in said.items():
            print(*(f"    {word}: {text}" for text in texts), sep="\n", end="\n" if texts else "")


if __name__ == "__main__":
    main()
