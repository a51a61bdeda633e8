#!/usr/bin/env python3
"""Small samples of what tools print, made from the rows of the table of forms, so that each form is tried; and the same with a fault.
Values are those of `value_reader.py`; of a seed the samples are always the same."""
import json
import random

import value_reader as reader

NAMES = ["src/a.c", "b.py", "lib/c d.js", "é/ñ.txt", "x/y.rs"]
LEVELS = ["error", "Warning", "INFO", "note", "style", "W", "2", "high", "refactor", "no such level", "error: internal compiler error"]
TEXTS = ["line 14 is long (121 > 120)", "no such name `totl`", "two\nlines", "a \"quoted\" text \\ with a backslash", "é → 𝕏", "x"]
ODD = [None, reader.Number("0"), reader.Number("-1"), reader.Number("1.5"), reader.Number("1e3"), reader.Number("4294967295"), reader.Number("4294967296"),
       reader.Number("99999999999999999999"), True, False, "", "x", "12", "007", "-3", [], [reader.Number("1")], [None], [[]], "error", "src/a.c", "a.go:3", "C:\\a.go:3:4", ":3", "a.go:", "a.go:x:3", "a.go:0:2", "a.go:4294967296:1", "a.go:1:99999999999999999999"]


def copy(value):
    if isinstance(value, reader.Members):
        return reader.Members([(name, copy(it)) for name, it in value.pairs])
    return [copy(it) for it in value] if isinstance(value, list) else value


def text_of(value, indent=None):
    """The value as JSON, with numbers as they are written."""
    if isinstance(value, reader.Number):
        return str(value)
    if isinstance(value, (str, bool)) or value is None:
        return json.dumps(value, ensure_ascii=False)
    inner = None if indent is None else indent + 1
    front, last = ("", "") if indent is None else ("\n" + "  " * (indent + 1), "\n" + "  " * indent)
    if isinstance(value, list):
        return "[" + ",".join(front + text_of(it, inner) for it in value) + (last if value else "") + "]"
    return "{" + ",".join(f"{front}{json.dumps(name, ensure_ascii=False)}: {text_of(it, inner)}" for name, it in value.pairs) + (last if value.pairs else "") + "}"


class Sampler:
    def __init__(self, seed):
        self.random = random.Random(seed)

    # ---- values put at steps

    def put(self, value, steps, leaf, which):
        """A value with a leaf at steps; `which` gives the index for each `[]` and the name for each `{}`. What is there stays."""
        if not steps:
            return leaf if value is None or reader.is_hollow(value) and isinstance(leaf, (list, reader.Members)) else value
        step, rest = steps[0], steps[1:]
        if step[0] in ("key", "member"):
            value = reader.Members([]) if value is None or value == [] else value
            if not isinstance(value, reader.Members):
                return value
            name = step[1] if step[0] == "key" else which.pop(0)
            old = value.get(name)
            new = self.put(None if old is reader.ABSENT else old, rest, leaf, which)
            value.pairs = [(own, new if own == name else it) for own, it in value.pairs] + ([] if old is not reader.ABSENT else [(name, new)])
            return value
        value = [] if value is None else value
        if not isinstance(value, list):
            return value
        at = step[1] if step[0] == "nth" else which.pop(0)
        while len(value) <= at:
            value.append(None)
        value[at] = self.put(value[at], rest, leaf, which)
        return value

    def places(self, steps, last):
        """An index or a name for each step that goes to several; the last name counts up, else the last index."""
        many = [step[0] for step in steps if step[0] in ("each", "member")]
        last_of = {at: kind for at, kind in enumerate(many) if kind == "member" or "member" not in many}
        counted = max(last_of, default=None)
        return [NAMES[last % len(NAMES) if at == counted else 0] if kind == "member" else last if at == counted else 0 for at, kind in enumerate(many)]

    # ---- parts

    def leaf(self, kinds, part, number):
        """A value of a part; of the first of the kinds that the mark wants there, if it has one."""
        if kinds and kinds[0] in "ao":
            return [] if kinds[0] == "a" else reader.Members([])
        wants_number = kinds[:1] == "n" if kinds else part in reader.NUMBERS
        if wants_number:
            figures = {"line": number + 1, "line0": number, "column": 2, "column0": 1, "end_line": number + 1 + self.random.randrange(2), "end_column": 4, "length": 2, "offset": 3, "end_offset": 6}
            figure = str(figures.get(part, 1000 + number))
            return figure if not kinds and self.random.random() < 0.2 else reader.Number(figure)
        texts = {"file": NAMES[number % len(NAMES)], "severity": self.random.choice(LEVELS), "code": self.random.choice(["E501", "W033", "no-undef", "C", "f1"]),
                 "url": "https://e/1", "message": f"{self.random.choice(TEXTS)} {number}",
                 "posn": f"{NAMES[number % len(NAMES)]}:{number + 1}{self.random.choice(['', ':2', ':6'])}"}
        return texts.get(part, f"{part} {number}: {self.random.choice(TEXTS)}")

    def kinds(self, form, steps):
        plain = [step[:1] if step[0] in ("each", "member") else step for step in steps]
        return next((kinds for own, kinds in form.mark if [step[:1] if step[0] in ("each", "member") else step for step in own] == plain), "")

    def outer(self, steps, out):
        """The steps to the value that is `out` values out, and how many of the places they use."""
        steps = steps[:max(len(steps) - out, 0)]
        return steps, sum(step[0] in ("each", "member") for step in steps)

    def put_at(self, form, value, at, which, path, leaf_of):
        if path.is_name:
            return value
        steps, count = self.outer(at, path.out)
        leaf = leaf_of(self.kinds(form, steps + path.steps))
        return self.put(value, steps + path.steps, leaf, which[:count] + [0] * 4)

    def fill(self, form, value, at, which, lines, number, full):
        """A value with the parts of an element at steps."""
        value = self.put(value, at, reader.Members([]) if self.has_keys(lines) else self.leaf("", "text", number), list(which))
        for guard in lines.only:
            if guard.ask in ":?+":
                word = {"true": True, "false": False}.get(guard.words[0], guard.words[0]) if guard.ask == ":" else None
                part = next((name for name, paths in lines.parts if any(path.steps == guard.path.steps for path in paths)), "text")
                value = self.put_at(form, value, at, which, guard.path, lambda kinds: self.leaf(kinds, part, number) if word is None else word)
        barred = [guard.path.steps for guard in lines.only if guard.ask == "!"]
        for name, paths in lines.parts:
            path = paths[number % len(paths)]
            is_needed = name in ("message", "code", "file") or any(guard.path.steps == path.steps for guard in lines.only)
            if path.steps in barred or not (full or is_needed or self.random.random() < 0.6):
                continue
            value = self.put_at(form, value, at, which, path, lambda kinds: self.random.random() < 0.5 if name == "primary" else self.leaf(kinds, name, number))
        for side in lines.sides:
            steps = at + side.steps
            for last in range(1 + (steps[-1:] == [("each",)] and self.random.random() < 0.5)):
                if side.steps and (full or self.random.random() < 0.7):
                    more = sum(step[0] in ("each", "member") for step in side.steps)
                    value = self.fill(form, value, steps, list(which) + [0] * (more - 1) + [last] * (more > 0), side, number + last, full)
                elif not side.steps:
                    value = self.fill(form, value, steps, which, side, number, full)
        return value

    def has_keys(self, lines):
        return any(path.steps and not path.out for _, paths in lines.parts for path in paths)

    # ---- samples

    def values(self, form, full):
        """Values of a form, with two elements for each of its lists: one value, or several if an element is the whole value."""
        made, value, counts = [], None, {}
        for number, lines in enumerate(2 * form.lists):
            key = str(lines.steps)
            last = counts.get(key, 0)
            counts[key] = last + 1
            which = self.places(lines.steps, last)
            value = self.fill(form, self.marked(form, value), lines.steps, which, lines, number, full or not made)
            if not any(step[0] in ("each", "member") for step in lines.steps) and not lines.steps:
                made.append(value)
                value = None
        return made or [self.marked(form, value)]

    def marked(self, form, value):
        """A value with the least that the form's mark wants."""
        for steps, kinds in sorted(form.mark, key=lambda it: len(it[0])):
            if "-" not in kinds and not any(reader.kind(it) in kinds for it in reader.leads(steps, value if value is not None else [])):
                which = [NAMES[0] if step[0] == "member" else 0 for step in steps if step[0] in ("each", "member")]
                value = self.put(value, steps, self.leaf(kinds, steps[-1][1] if steps and steps[-1][0] == "key" else "text", 1), which)
        return value if value is not None else reader.Members([])

    def text(self, values):
        """Values one after another, in the ways in which tools print them."""
        indent = self.random.choice([None, None, 0])
        return self.random.choice(["\n", "\n", "", "\n\n"] if len(values) > 1 else ["\n"]).join(text_of(it, indent) for it in values) + self.random.choice(["", "\n"])

    def reordered(self, value):
        """A value with the members of each object in another order; of a name twice the last stays the last."""
        if isinstance(value, list):
            return [self.reordered(it) for it in value]
        if not isinstance(value, reader.Members):
            return value
        pairs = list(dict((name, self.reordered(it)) for name, it in value.pairs).items())
        self.random.shuffle(pairs)
        return reader.Members(pairs)

    def mutant(self, value):
        """A value with a member gone, another value somewhere, an element or a member more, or its members in another order."""
        value = copy(value)
        spots = []

        def walk(it):
            inner = list(enumerate(it)) if isinstance(it, list) else [(at, own) for at, (_, own) in enumerate(it.pairs)] if isinstance(it, reader.Members) else []
            for at, own in inner:
                spots.append((it, at))
                walk(own)

        walk(value)
        if not spots:
            return value
        holder, at = self.random.choice(spots)
        inner = holder if isinstance(holder, list) else holder.pairs
        chance, odd = self.random.random(), copy(self.random.choice(ODD + [reader.Members([]), reader.Members([("a", reader.Number("1"))])]))
        if chance < 0.25:
            del inner[at]
        elif chance < 0.75:
            inner[at] = odd if isinstance(holder, list) else (inner[at][0], odd)
        elif chance < 0.85:
            inner.insert(at, odd if isinstance(holder, list) else (self.random.choice(["x", "message", "a b"]), odd))
        else:
            self.random.shuffle(inner)
        return value
