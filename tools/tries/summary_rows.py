"""What a CI job shows of findings: rows of findings, and the summary and the Markdown of each, written by hand.

A finding is a severity, a rule and a file; without a rule or a file it has an empty one. `row_log` gives a row's findings as a SARIF log, as
`girzohal` reads it with `--to summary` and `--to markdown`."""
from finding_rows import log

EMPTY = ("nothing", [], "no findings\n", "no findings\n")

FOUR = (
    "files and rules by count, then by name",
    [("error", "-Wformat", "src/cart.c"), ("error", "", "src/cart.c"), ("warning", "-Wformat", "lib/a.c"), ("note", "", "src/cart.c")],
    """\
4 findings: 2 errors, 1 warning, 1 note

By file
  3  src/cart.c
  1  lib/a.c

By rule
  2  (no rule)
  2  -Wformat
""",
    """\
4 findings: 2 errors, 1 warning, 1 note

| Findings | File |
| ---: | :--- |
| 3 | src/cart.c |
| 1 | lib/a.c |

| Findings | Rule |
| ---: | :--- |
| 2 | (no rule) |
| 2 | -Wformat |
""",
)

ONE = (
    "one note without a file",
    [("note", "n", "")],
    "1 finding: 1 note\n\nBy file\n  1  (no file)\n\nBy rule\n  1  n\n",
    "1 finding: 1 note\n\n| Findings | File |\n| ---: | :--- |\n| 1 | (no file) |\n\n| Findings | Rule |\n| ---: | :--- |\n| 1 | n |\n",
)

# The order of names is that of their bytes: capitals, `_`, small letters, then `é`.
ALIGNED = (
    "numbers are right-aligned, and equal ones ordered by bytes",
    [("warning", "w", "most.c")] * 10 + [("warning", "w", name) for name in ("é.c", "b.c", "_.c", "B.c", "b")],
    """\
15 findings: 15 warnings

By file
  10  most.c
   1  B.c
   1  _.c
   1  b
   1  b.c
   1  é.c

By rule
  15  w
""",
    """\
15 findings: 15 warnings

| Findings | File |
| ---: | :--- |
| 10 | most.c |
| 1 | B.c |
| 1 | \\_.c |
| 1 | b |
| 1 | b.c |
| 1 | é.c |

| Findings | Rule |
| ---: | :--- |
| 15 | w |
""",
)

HOSTILE = (
    "what Markdown would read otherwise",
    [("error", r"a|b\|c\\", "<x>&*_~[1](2)`")],
    "1 finding: 1 error\n\nBy file\n  1  <x>&*_~[1](2)`\n\nBy rule\n  1  " + r"a|b\|c\\" + "\n",
    "1 finding: 1 error\n\n| Findings | File |\n| ---: | :--- |\n| 1 | " + r"\<x\>\&\*\_\~\[1\](2)\`" + " |\n\n| Findings | Rule |\n| ---: | :--- |\n| 1 | "
    + r"a\|b\\\|c\\\\" + " |\n",
)


def many(count):
    """A finding on each of these files, a second one on the last three, all of one rule."""
    names = [f"f{number:03}.c" for number in range(count)]
    first = names[-3:]
    ranked = [(2, name) for name in first] + [(1, name) for name in names[:-3]]
    shown = "".join(f"| {number} | {name} |\n" for number, name in ranked[:50])
    more = f"| | *and {count - 50} more with {count - 50}* |\n" if count > 50 else ""
    return (
        f"{count} files",
        [("error", "r", name) for name in names + first],
        f"{count + 3} findings: {count + 3} errors\n\nBy file\n" + "".join(f"  {number}  {name}\n" for number, name in ranked) + f"\nBy rule\n  {count + 3}  r\n",
        f"{count + 3} findings: {count + 3} errors\n\n| Findings | File |\n| ---: | :--- |\n{shown}{more}\n| Findings | Rule |\n| ---: | :--- |\n| {count + 3} | r |\n",
    )


ROWS = (EMPTY, FOUR, ONE, ALIGNED, HOSTILE, many(50), many(51), many(80))


def row_log(findings):
    """The findings of a row as a SARIF log."""
    return log(("", [(level, rule, "m", file, ()) for level, rule, file in findings]))


def wrong_rows(run):
    """The rows of which `run(form, findings)` gives another text than is wanted: the name, the form, and what it gives."""
    for name, findings, summary, markdown in ROWS:
        for form, wanted in (("summary", summary), ("markdown", markdown)):
            got = run(form, findings)
            if got != wanted:
                yield name, form, got
