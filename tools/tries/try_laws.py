#!/usr/bin/env python3
"""Tries the laws of filters on what `girzohal` leaves of findings at random: documents, SARIF logs and lines, with baselines in any of
these forms, which know the rows of all their entries, of some or of none. Only what is on changed rows, what is alike and what is
repeated is told by `filter_reader.py`; what is left is compared with what is left by other runs.

usage: try_laws.py PROGRAM [--cases N] [--seed S]      (crates/girzohal/out/girzohal after `rt run` there)

The last line is `N passed, M failed`; the status is 0 if M is 0."""
import json
import os
import re
import sys
import tempfile
from collections import Counter, namedtuple

sys.dont_write_bytecode = True
import filter_reader as reader
import try_filters
from try_filters import NAMES

FORMS = ("document", "sarif", "lines")
# findings of a form: as they were made, as that form says them, and the text of it
Given = namedtuple("Given", "form made seen text")
# a baseline: its form, and the files whose texts are taken out of a log
Form = namedtuple("Form", "name without")


def is_part(part, whole):
    """Whether a list is some of another one's elements, in order."""
    rest = iter(whole)
    return all(any(it == other for other in rest) for it in part)


class Laws(try_filters.Tries):
    def __init__(self, *words):
        super().__init__(*words)
        self.root = os.path.realpath(self.room)
        self.tried = Counter()
        self.few = []

    def law(self, name, holds, *told):
        self.tried[name] += 1
        self.check(holds, name, *told)

    # ---- findings and baselines

    def alike(self, texts, it):
        """A finding of the same kind, somewhere in its file."""
        other = self.finding(texts)
        while other["file"] != it["file"]:
            other = self.finding(texts)
        return dict(other, **{key: it[key] for key in ("scope", "code", "message")})

    def made(self, texts, most, scope):
        """Findings of which none is a note of another one, and many are of a few kinds."""
        found = [self.alike(texts, self.random.choice(self.few)) if self.random.random() < 0.6 else self.finding(texts) for _ in range(self.random.randrange(most))]
        return [dict(it, code=it["code"] or ("W6" if it["severity"] == "advice" else None), **scope) for it in found]

    def log(self, findings, texts, without=()):
        """A SARIF log, without the texts of some files."""
        log = json.loads(self.run("--to", "sarif", "--fail-on", "never", given=self.document(findings, texts))[1])
        for run in log["runs"]:
            for artifact in run.get("artifacts", []):
                if re.sub("//+", "/", artifact["location"]["uri"]).endswith(tuple(without)):
                    artifact.pop("contents", None)
        return json.dumps(log, ensure_ascii=False)

    def as_text(self, form, findings, texts):
        if form.name == "lines":
            return self.lines([self.as_line(it) for it in findings])
        return self.document(findings, texts) if form.name == "document" else self.log(findings, texts, form.without)

    def as_said(self, form, findings):
        """Findings as a form says them."""
        if form.name == "lines":
            return [self.as_line(it) for it in findings]
        return [dict(it, row=None) if it["file"] in form.without else it for it in findings]

    def given(self, texts):
        form = Form(self.random.choice(FORMS), ())
        scope = {"sarif": {"scope": "girzohal"}, "lines": {"scope": None}, "document": {}}[form.name]
        made = self.made(texts, 12, scope)
        return Given(form, made, self.as_said(form, made), self.as_text(form, made, texts)), scope

    def baseline(self, texts, given, scope):
        """A form, and entries: some that are findings too. Of some baselines each entry knows its row."""
        form = Form(self.random.choice(FORMS), ())
        if form.name == "sarif":
            form = Form("sarif", tuple(name for name in ("a.c", "b/c.py", "b/b/y.c", "vendor/x.min.js") if self.random.random() < 0.3))
        old = self.made(texts, 6, scope) + [it for it in given.made if self.random.random() < 0.5]
        self.random.shuffle(old)
        if self.random.random() < 0.4:
            form = Form(form.name, ())
            old = [it for it in old if it["line"]]
        return form, old

    def left(self, given, *words):
        """The lines of what is left, and what was told."""
        status, out, err = self.run("--to", "problems", "--fail-on", "never", *words, given=given.text)
        self.check(status == 0, "the status", words, status, err)
        return out.splitlines(keepends=True), err

    def left_by(self, given, texts, form, entries, *words):
        if form.name == "lines" and not entries:
            form = Form("document", ())
        self.write("old.txt", self.as_text(form, entries, texts))
        return self.left(given, "--baseline", "old.txt", *words)

    def is_unique(self):
        """Whether repetitions are left out."""
        return self.random.random() < 0.3

    # ---- counts of lines, by what their findings have in common

    def key(self, form, it, by_row):
        kind = reader.kind_of(it, self.root, form.name == "document")
        return (kind, reader.row_of(it)) if by_row else kind

    def keys_of(self, all_lines, keys):
        """The key of each line; nothing if findings of two keys have one line."""
        found = {}
        for line, key in zip(all_lines, keys):
            if found.setdefault(line, key) != key:
                return None
        return found

    def once(self, findings, unique):
        again = reader.repeats(findings, self.root) if unique else [False] * len(findings)
        return [it for it, twice in zip(findings, again) if not twice]

    # ---- the laws

    def law_parts(self, given, all_lines, texts, form, old):
        """What is left is a part of what was read, unchanged; and all that was read is counted."""
        _, words = self.wants(texts)
        left, told = self.left_by(given, texts, form, old, *words)
        self.law("a part is left", is_part(left, all_lines), words, given.text, left)
        counts = re.fullmatch(r"girzohal: (\d+) of (\d+) findings?(?:: ([^;]*))?(?:; \d+ of the baseline (?:is|are) gone)?\n", told)
        parts = sum(int(part.split()[0]) for part in counts[3].split(", ")) if counts and counts[3] else 0
        adds_up = counts and int(counts[1]) == len(left) and int(counts[2]) == len(all_lines) == len(left) + parts
        self.law("the counts are all", bool(adds_up), words, told, len(left), len(all_lines))

    def law_own(self, given, texts):
        """Findings as their own baseline leave nothing, whichever of both lacks rows."""
        form = Form(self.random.choice(FORMS), tuple(name for name in ("a.c", "b/c.py") if self.random.random() < 0.3))
        unique = self.is_unique() and (form.name == "lines") == (given.form.name == "lines")
        left, told = self.left_by(given, texts, form, given.made, *(["--unique"] if unique else []))
        self.law("its own baseline leaves nothing", left == [] and "gone" not in told, given.form, form, unique, given.text, left, told)

    def law_empty(self, given, all_lines, texts):
        form = Form(self.random.choice(FORMS[:2]), ())
        left, _ = self.left_by(given, texts, form, [])
        self.law("an empty baseline leaves all", left == all_lines, form, given.text, left)

    def law_longer(self, given, texts, form, old, scope):
        """With more entries behind, a part of what was left is left."""
        unique = ["--unique"] if self.random.random() < 0.3 else []
        left, _ = self.left_by(given, texts, form, old, *unique)
        more = old + self.made(texts, 3, scope) + [it for it in given.made if self.random.random() < 0.2]
        less, _ = self.left_by(given, texts, form, more, *unique)
        self.law("a longer baseline leaves no more", is_part(less, left), form, unique, given.text, left, less)

    def law_order(self, given, texts, form, old):
        """Entries in another order; with --unique those that are repetitions of one another keep theirs."""
        unique = self.is_unique()
        mixed = self.random.sample(old, len(old))
        if unique:
            exact = [reader.exact_of(it, self.root) for it in self.as_said(form, mixed)]
            rest = {key: [it for it, said in zip(old, self.as_said(form, old)) if reader.exact_of(said, self.root) == key] for key in exact}
            mixed = [rest[key].pop(0) for key in exact]
        words = ["--unique"] if unique else []
        left, _ = self.left_by(given, texts, form, old, *words)
        other, _ = self.left_by(given, texts, form, mixed, *words)
        self.law("the order is no matter", left == other, form, unique, given.text, left, other)

    def law_lesser(self, given, all_lines, texts, form, old, changes):
        """With a diff: of each kind the lesser of those on changed rows and of those that are more than the entries. By kinds if no
        finding or no entry knows its row; by rows if each entry does."""
        words, files, mode = changes
        unique = self.is_unique()
        entries = self.once(self.as_said(form, old), unique)
        findings = self.once(given.seen, unique)
        by_row = bool(entries) and all(it["row"] is not None for it in entries)
        if not by_row and any(it["row"] is not None for it in findings) and any(it["row"] is not None for it in entries):
            return
        keys = self.keys_of(all_lines, [self.key(form, it, by_row) for it in given.seen])
        if keys is None:
            return
        late = Counter(self.key(form, it, by_row) for it in findings if reader.on_changed(it, files, mode, self.root))
        all_of = Counter(self.key(form, it, by_row) for it in findings)
        had = Counter(self.key(form, it, by_row) for it in entries)
        left, told = self.left_by(given, texts, form, old, *words, *(["--unique"] if unique else []))
        got = Counter(keys[line] for line in left)
        told_of = [key for key in all_of if not by_row or key[1] is not None]
        wrong = [(key, got[key], late[key], all_of[key], had[key]) for key in told_of if got[key] != min(late[key], max(0, all_of[key] - had[key]))]
        self.law("the lesser is left, by " + ("rows" if by_row else "kinds"), not wrong, form, unique, words, given.text, told, wrong)

    def law_rest(self, given, all_lines, texts, form, old, changes):
        """Entries without a row take of what those with one leave, and findings on changed rows last."""
        words, _, _ = changes
        keys = self.keys_of(all_lines, [self.key(form, it, False) for it in given.seen])
        if keys is None:
            return
        said = self.as_said(form, old)
        rows = [it for it, entry in zip(old, said) if entry["row"] is not None]
        bare = Counter(self.key(form, entry, False) for entry in said if entry["row"] is None)

        def count(entries, *words):
            return Counter(keys[line] for line in self.left_by(given, texts, form, entries, *words)[0])

        new, new_rows, late, late_rows = count(old), count(rows), count(old, *words), count(rows, *words)
        is_rest = all(new[key] == max(0, new_rows[key] - bare[key]) for key in set(keys.values()))
        is_last = all(late[key] == min(late_rows[key], new[key]) for key in set(keys.values()))
        self.law("entries without a row take the rest", is_rest, form, given.text, new, new_rows, bare)
        self.law("and findings on changed rows last", is_last, form, words, given.text, new, late, late_rows)

    def law_modes(self, given, all_lines, words):
        """What a mode leaves, each wider one leaves."""
        parts = [self.left(given, *words, "--filter-mode", mode)[0] for mode in reader.MODES] + [all_lines]
        self.law("each mode is within the next", all(map(is_part, parts, parts[1:])) and parts[-2] == all_lines, words, given.text, parts)

    def changes(self, texts):
        """The words for a diff and a mode, the diff, and the mode."""
        diff, strip = self.diff(texts)
        self.write("changes.diff", diff)
        words = ["--changed", "changes.diff", *(("--strip", str(strip)) if strip is not None else ())]
        mode = self.random.choice(reader.MODES)
        return words, (words + ["--filter-mode", mode], reader.read_diff(diff, strip), mode)

    def case(self):
        texts = {name: self.text() for name in NAMES}
        self.few = [self.finding(texts) for _ in range(2)]
        given, scope = self.given(texts)
        all_lines, _ = self.left(given)
        if len(all_lines) != len(given.seen):
            return self.check(False, "findings read", given, all_lines)
        form, old = self.baseline(texts, given, scope)
        self.law_parts(given, all_lines, texts, form, old)
        self.law_own(given, texts)
        self.law_empty(given, all_lines, texts)
        self.law_longer(given, texts, form, old, scope)
        self.law_order(given, texts, form, old)
        words, changes = self.changes(texts)
        self.law_lesser(given, all_lines, texts, form, old, changes)
        self.law_rest(given, all_lines, texts, form, old, changes)
        self.law_modes(given, all_lines, words)
        return None


def main():
    words = sys.argv[1:]
    options = {}
    while len(words) > 1 and words[-2] in ("--cases", "--seed"):
        options[words[-2]] = int(words[-1])
        words = words[:-2]
    with tempfile.TemporaryDirectory() as room:
        laws = Laws(words[0], options.get("--cases", 2000), options.get("--seed", 7), room)
        for _ in range(laws.cases):
            laws.case()
    print(", ".join(f"{name}: {count}" for name, count in laws.tried.items()))
    print(f"{laws.passed} passed, {laws.failed} failed")
    return int(laws.failed > 0)


if __name__ == "__main__":
    sys.exit(main())
