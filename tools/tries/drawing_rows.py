#!/usr/bin/env python3
"""Documents, and what `report` shows of them, row by row. `try_report.py` walks `ROWS`, which are as in `document_rows.py`.
Every character was worked out by hand."""
import sys

sys.dont_write_bytecode = True
from document_rows import row, shown


def document(name, source, report):
    """A document of version 2, with one file and a report of these members on it."""
    return f'{{"version":2,"files":[{{"name":"{name}","source":"{source}"}}],"reports":[{{"file":0,{report}}}]}}'


APP = document("src/app.js", 'import { a } from \\"x\\";\\n\\nfunction f(b) {\\n\\treturn a + c;\\n}\\n',
               '"message":"\'c\' is not defined.","severity":"warning","scope":"eslint","number":"no-undef",'
               '"help":"Declare it or import it.",'
               '"labels":[{"bytes":[52,53],"text":"not found"},{"bytes":[33,34],"text":"in this function"}]')
WARNING = """
  ! eslint(no-undef): 'c' is not defined.
   ,-[src/app.js:3:10]
 2 |\x20
 3 | function f(b) {
   :          |
   :          `-- in this function
 4 |     return a + c;
   :                |
   :                `-- not found
 5 | }
   `----
  help: Declare it or import it.
"""

ROWS_OF_A = "foo\\nbar\\nbaz"
FIRST = document("a.js", ROWS_OF_A, '"message":"\'c\' is not defined","scope":"eslint","number":"no-undef","help":"declare it",'
                 '"labels":[{"bytes":[0,11],"text":"block"},{"bytes":[4,7],"text":"here"}]')
FIRST_PAGE = """
  x eslint(no-undef): 'c' is not
  | defined
   ,-[a.js:1:1]
 1 | ,-> foo
 2 | |   bar
   : |   ^|^
   : |    `-- here
 3 | |-> baz
   : `---- block
   `----
  help: declare it
"""

BLOCK = "a {\\n  b\\n}\\n"
OVER_ROWS = document("b.js", BLOCK, '"message":"m","labels":[{"bytes":[2,9],"text":"block\\nhere"}]')
A_GUTTER = """
  x m
   ,-[b.js:1:3]
 1 | ,-> a {
 2 | |     b
 3 | |-> }
   : `--| block
   :    | here
   `----
"""
TWICE_OVER_ROWS = document("m", "a\\nb\\n", '"message":"m","labels":[{"bytes":[0,3]},{"bytes":[0,3],"text":"z"}]')
TWO_GUTTERS = """
  x m
   ,-[m:1:1]
 1 | ,--> a
 2 | `--> b
   : `----- z
   `----
"""

HERE = document("a.js", ROWS_OF_A, '"message":"Oops","labels":[{"bytes":[4,7],"text":"here"}]')
IN_BOXES = """
  × Oops
   ╭─[a.js:2:1]
 1 │ foo
 2 │ bar
   · ─┬─
   ·  ╰── here
 3 │ baz
   ╰────
"""
HERE_AS_JSON = ('{"message": "Oops","severity": "error","filename": "a.js","labels": ['
                '{"label": "here","span": {"offset": 4,"length": 3,"line": 2,"column": 1}}]}\n')

# The styles of the theme `unicode`, and the end of each.
RED, YELLOW, BLUE = "\x1b[38;2;225;80;80;1m", "\x1b[38;2;244;191;117;1m", "\x1b[38;2;92;157;255;1m"
PINK, DIM, END = "\x1b[38;2;246;87;248m", "\x1b[2m", "\x1b[0m"
IN_COLORS = f"""
  {RED}×{END} {RED}Oops{END}
   ╭─[{BLUE}a.js{END}:2:1]
 {DIM}1{END} │ foo
 {DIM}2{END} │ bar
   · {PINK}─┬─{END}
   ·  {PINK}╰── {PINK}here{END}{END}
 {DIM}3{END} │ baz
   ╰────
"""
A_BLOCK = document("b.js", BLOCK, '"message":"m","labels":[{"bytes":[2,9],"text":"block"}]')
BLOCK_IN_COLORS = f"""
  {RED}×{END} {RED}m{END}
   ╭─[{BLUE}b.js{END}:1:3]
 {DIM}1{END} │ {PINK}╭{END}{PINK}─{END}{PINK}▶{END} a {{
 {DIM}2{END} │ {PINK}│{END}     b
 {DIM}3{END} │ {PINK}├{END}{PINK}─{END}{PINK}▶{END} }}
   · {PINK}╰{END}{PINK}───{END}{PINK}─{END} {PINK}block{END}
   ╰────
"""

AFTER_A_TAB = document("t", "\\tlet x", '"message":"m","labels":[{"bytes":[5,6]}]')
BY_FOUR = """
  x m
   ,-[t:1:6]
 1 |     let x
   :         ^
   `----
"""
BY_TWO = """
  x m
   ,-[t:1:6]
 1 |   let x
   :       ^
   `----
"""

# Messages as an input has them, and as `--json` writes them.
ESCAPED = [
    ('a\\"b\\\\\\u0001', 'a\\"b\\\\\\u0001'),
    ("\\r\\n\\t\\b\\f\\u001f\\u007f\\/日", "\\r\\n\\t\\b\\f\\u001f\x7f/日"),
]


def as_json(message):
    """A report without labels, as `--json` writes it."""
    return f'{{"message": "{message}","severity": "error","filename": "a","labels": []}}\n'


ALL_PARTS = document("a", "abcdefghijk", '"labels":[{"bytes":[7,7]},{"bytes":[2,11],"primary":true}],"note":"o","help":"h","url":"u",'
                     '"number":"n","scope":"s","severity":"advice","message":"m"')
IN_THEIR_ORDER = ('{"message": "m","code": "s(n)","severity": "advice","url": "u","help": "h","note": "o","filename": "a","labels": ['
                  '{"span": {"offset": 7,"length": 0,"line": 1,"column": 8}},{"span": {"offset": 2,"length": 9,"line": 1,"column": 3}}]}\n')

ROWS = [
    row("a report has title, snippet and help", "", APP, shown(WARNING)),
    row("the first page of oxc_handlers", "--width 36", FIRST, shown(FIRST_PAGE)),
    row("a label over rows has a gutter", "", OVER_ROWS, shown(A_GUTTER)),
    row("two labels over the same rows", "", TWICE_OVER_ROWS, shown(TWO_GUTTERS)),
    row("box characters without colors", "--theme unicode_nocolor", HERE, shown(IN_BOXES)),
    row("colors at a mark", "--theme unicode", HERE, shown(IN_COLORS)),
    row("colors at a gutter", "--theme unicode", A_BLOCK, shown(BLOCK_IN_COLORS)),
    row("a label has its line and its column", "--json", HERE, shown(HERE_AS_JSON)),
    row("tab stops", "", AFTER_A_TAB, shown(BY_FOUR)),
    row("tab stops at multiples of two", "--tabs 2", AFTER_A_TAB, shown(BY_TWO)),
    row("a width of nothing", "--width 0", document("a", "ab", '"message":"ab"'), shown("\n  x a\n  | b\n")),
    row("a warning in its style", "--theme unicode", document("a", "", '"message":"w","severity":"warning"'),
        shown(f"\n  {YELLOW}⚠{END} {YELLOW}w{END}\n")),
    *(row(f"an escaped text: {given}", "--json", document("a", "", f'"message":"{given}"'), shown(as_json(written)))
      for given, written in ESCAPED),
    row("all parts in their order", "--json", ALL_PARTS, shown(IN_THEIR_ORDER)),
]
