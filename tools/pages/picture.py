#!/usr/bin/env python3
"""Makes a picture (SVG) of a text with colors, a drawing or what a tool printed: picture.py < TEXT > PICTURE. It needs Python alone."""
import html
import re
import sys
import unicodedata

CELL, LINE, EDGE = 8.4, 18, 12
# The colors 30 to 37 of a terminal, of which black can be seen, and those of 90 to 97.
DARK = "#6b7280 #d05a5a #63b365 #c9a84c #5b8ed6 #b873c9 #4fb0b0 #c8ced8".split()
BRIGHT = "#6b7280 #f07178 #8fd694 #f2d06b #82aaff #d79be8 #7fdbca #ffffff".split()
TEXT, PAGE = "#d8dee9", "#1b1f27"
ESCAPE = re.compile(r"\x1b\[([0-9;]*)m|\x1b\[K|\x1b\(B|\x1b\]8;[^\x07\x1b]*(?:\x07|\x1b\\)")


class Style:
    """What the escapes before a text set."""

    def __init__(self):
        self.color, self.back, self.bold, self.dim, self.inverse = None, None, False, False, False

    def read(self, codes):
        codes = [int(code or 0) for code in codes.split(";")]
        while codes:
            code = codes.pop(0)
            if code == 0:
                self.__init__()
            elif code in (38, 48):
                color, codes = extended(codes)
                self.color, self.back = (color, self.back) if code == 38 else (self.color, color)
            elif 30 <= code <= 37 or 90 <= code <= 97:
                self.color = DARK[code - 30] if code < 40 else BRIGHT[code - 90]
            elif 40 <= code <= 47 or 100 <= code <= 107:
                self.back = DARK[code - 40] if code < 50 else BRIGHT[code - 100]
            elif code == 39:
                self.color = None
            elif code == 49:
                self.back = None
            elif code in (7, 27):
                self.inverse = code == 7
            elif code in (1, 2):
                self.bold, self.dim = self.bold or code == 1, self.dim or code == 2
            elif code == 22:
                self.bold, self.dim = False, False

    def look(self):
        color, back = (self.back or PAGE, self.color or TEXT) if self.inverse else (self.color, self.back)
        said = f' fill="{color}"' if color else ""
        said += ' font-weight="bold"' if self.bold else ""
        return said + (' opacity="0.6"' if self.dim else ""), back


def extended(codes):
    """A color of 24 bits or of the 256, and the codes after it."""
    if codes[:1] == [2]:
        return f"rgb({','.join(map(str, codes[1:4]))})", codes[4:]
    number = codes[1] if len(codes) > 1 else 7
    if number < 16:
        return (DARK + BRIGHT)[number], codes[2:]
    if number < 232:
        parts = [0 if part == 0 else 55 + 40 * part for part in ((number - 16) // 36, (number - 16) // 6 % 6, (number - 16) % 6)]
    else:
        parts = [8 + 10 * (number - 232)] * 3
    return f"rgb({','.join(map(str, parts))})", codes[2:]


def cells(text):
    return sum(2 if unicodedata.east_asian_width(char) in "WF" else 0 if unicodedata.combining(char) else 1 for char in text)


def spans(style, line):
    """The texts of a line with how each looks, tabs as blanks up to the next eighth column."""
    at = column = 0
    for found in [*ESCAPE.finditer(line), None]:
        text = ""
        for char in line[at:found.start() if found else len(line)]:
            text += " " * (8 - (column + cells(text)) % 8) if char == "\t" else char
        column += cells(text)
        if text:
            yield text, style.look()
        if found and found[1] is not None:
            style.read(found[1])
        at = found.end() if found else at


def folded(row, columns):
    """A row in rows of so many columns, as a terminal shows it."""
    rows, width = [[]], 0
    for text, look in row:
        piece = ""
        for char in text:
            if columns and width + cells(piece + char) > columns:
                rows[-1].append((piece, look))
                rows.append([])
                piece, width = "", 0
            piece += char
        rows[-1].append((piece, look))
        width += cells(piece)
    return rows


def rows_of(text, columns=None):
    """The rows of a text: texts with how they look."""
    style = Style()
    return [row for line in text.strip("\n").replace("\r", "").split("\n") for row in folded(list(spans(style, line)), columns)]


def row_texts(row, left, top):
    """A row of a picture, each of its texts where it begins."""
    column = 0
    for text, (look, back) in row:
        x = left + column * CELL
        if back:
            yield f'<rect x="{x:.1f}" y="{top}" width="{cells(text) * CELL:.1f}" height="{LINE}" fill="{back}"/>'
        if text.strip(" "):
            yield f'<text x="{x:.1f}" y="{top + 14}"{look}>{html.escape(text)}</text>'
        column += cells(text)


def picture(panes, widths):
    """A picture of texts beside each other, which have so many columns each."""
    height = max(map(len, panes)) * LINE + 2 * EDGE
    lefts = [EDGE + sum(widths[:at]) * CELL + at * 2 * EDGE for at in range(len(panes))]
    width = lefts[-1] + widths[-1] * CELL + EDGE
    yield f'<svg xmlns="http://www.w3.org/2000/svg" width="{width:.0f}" height="{height}" viewBox="0 0 {width:.0f} {height}">'
    yield f'<rect width="100%" height="100%" rx="6" fill="{PAGE}"/>'
    for left in lefts[1:]:
        yield f'<path d="M{left - EDGE:.1f} {EDGE}V{height - EDGE}" stroke="{BRIGHT[0]}"/>'
    yield f'<g font-family="DejaVu Sans Mono, monospace" font-size="14" fill="{TEXT}" xml:space="preserve">'
    for rows, left in zip(panes, lefts):
        for number, row in enumerate(rows):
            yield from row_texts(row, left, EDGE + number * LINE)
    yield "</g></svg>"


def single(text):
    """A picture of one text."""
    rows = rows_of(text)
    return "\n".join(picture([rows], [max(sum(cells(it) for it, _ in row) for row in rows)])) + "\n"


def beside(texts, columns):
    """A picture of texts beside each other, in terminals with so many columns."""
    return "\n".join(picture([rows_of(text, columns) for text in texts], [columns] * len(texts))) + "\n"


if __name__ == "__main__":
    sys.stdout.write(single(sys.stdin.read()))
