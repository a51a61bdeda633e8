#!/usr/bin/env python3
"""Prints crates/text_tests/src/of_client_text/transcript.rt: forty notifications of a client that counts in UTF-16, and the text after each, by
a plain replay on a string of characters. usage: client_transcript.py > FILE"""
import random
import re

START = "// \u00e9\r\nlet a = '\U0001f600';\rfn f() {\n  g(\u6f22, 2)\n}\nend"
PIECES = ["x", "\u00e9", "\U0001f600", "\u6f22b", "\n", "\r\n", "\r", "; ", "two\nrows", ""]
FAULTY = 23
LONGEST = 76


def lines(text):
    """Where each line starts, and where its break begins."""
    out, start = [], 0
    for found in re.finditer("\r\n|\r|\n", text):
        out.append((start, found.start()))
        start = found.end()
    return out + [(start, len(text))]


def units(text):
    return len(text.encode("utf-16-le")) // 2


def place_of(text, at):
    number, (start, _) = [(n, line) for n, line in enumerate(lines(text)) if line[0] <= at][-1]
    return number, units(text[start:at])


def nearest(text, place):
    """The last character of the line that starts at the unit or before it, not after the break; past the lines the end."""
    if place[0] >= len(lines(text)):
        return len(text)
    start, end = lines(text)[place[0]]
    return max(at for at in range(start, end + 1) if units(text[start:at]) <= place[1])


def literal(text):
    plain = {"\n": "\\n", "\r": "\\r", '"': '\\"', "\\": "\\\\"}
    return '"' + "".join(plain.get(c, c if " " <= c <= "~" else f"\\u{{{ord(c):x}}}") for c in text) + '"'


def change(chance, text):
    """A range and a piece, and the text after the change. Some places are past a line's end, or the text's, or within a pair."""
    if chance.random() < 0.05:
        piece = "new\r\n" + chance.choice(PIECES) * 2
        return None, piece, piece
    long = len(literal(text)) > LONGEST - 28
    at = chance.randrange(len(text) + 1)
    ends = [place_of(text, at), place_of(text, min(len(text), at + chance.randrange(10 if long else 2)))]
    if chance.random() < 0.2:
        ends[1] = (ends[1][0], ends[1][1] + chance.randrange(1, 5))
    if chance.random() < 0.05:
        ends[1] = (ends[1][0] + 1, 0)
    piece = "" if long else chance.choice(PIECES)
    return tuple(ends), piece, text[:nearest(text, ends[0])] + piece + text[nearest(text, ends[1]):]


def notifications():
    chance, text = random.Random(7), START
    for number in range(40):
        sent, now = [], text
        for _ in range(chance.choice([1, 1, 2, 3])):
            span, piece, after = change(chance, now)
            if span is None or nearest(now, span[0]) <= nearest(now, span[1]):
                sent.append((span, piece))
                now = after
        if number == FAULTY:
            sent = sent[:1] + [(((0, 2), (0, 0)), "-"), (((0, 0), (0, 1)), "")]
        else:
            text = now
        yield sent, text


def main():
    print("// What a client with UTF-16 sends, one notification after another, and the text after each. It was\n"
          "// printed by tools/tries/client_transcript.py, whose replay is plain.\nuse crate::of_client_text::Notification;\nuse client_text::Fault;\n")
    print(f"/// The text that is opened.\npub(super) const START: &str =\n    {literal(START)};\n")
    print("/// The notifications.\npub(super) const TRANSCRIPT: [Notification<'static>; 40] = [")
    for number, (sent, text) in enumerate(notifications()):
        rows = [f"({f'Some({span})' if span else 'None'}, {literal(piece)})" for span, piece in sent]
        changes = f"        changes: &[{', '.join(rows)}],"
        if len(", ".join(rows)) > 60:
            changes = "        changes: &[\n" + "".join(f"            {row},\n" for row in rows) + "        ],"
        refused = f"Some(({len(sent) - 2}, Fault::Reversed))" if number == FAULTY else "None"
        print(f"    Notification {{\n        version: {number + 2},\n{changes}\n        refused: {refused},\n"
              f"        text: {literal(text)},\n    }},")
    print("];")


main()
