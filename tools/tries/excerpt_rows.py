"""Rows for `try_excerpts.py`: a finding with what a tool prints below it, and what that says. The values were worked out by hand from the
sources, and from what the tools mean by their drawings.

A label is the row, the character, the row and the character at which it begins and ends in the source (rows from 1, characters from 0),
whether it is primary, and its text. One in another file is that file's name, the place, and what its report says."""
from typing import NamedTuple


class Row(NamedTuple):
    what: str
    name: str
    source: str
    output: str
    labels: list = ()
    note: list = ()
    help: list = ()
    kept: list = ()
    read: bool = True  # else the body is kept as a whole
    others: list = ()  # other files: their names and texts
    asides: list = ()
    unit: str = "characters"  # what the columns count


ROWS = [
    Row("labels beside their marks, a note and a suggestion", "a.rs",
        "fn f() {\n    let v = vec![1];\n    let w = v;\n    v.len();\n}\n",
        """\
error[E0382]: borrow of moved value: `v`
 --> a.rs:4:5
  |
2 |     let v = vec![1];
  |         - move occurs because `v` is a `Vec<i32>`
3 |     let w = v;
  |             - value moved here
4 |     v.len();
  |     ^ value borrowed here after move
  |
  = note: borrow occurs due to deref coercion
help: consider cloning
  |
3 |     let w = v.clone();
  |              ++++++++
""",
        [(2, 8, 2, 9, False, "move occurs because `v` is a `Vec<i32>`"), (3, 12, 3, 13, False, "value moved here"),
         (4, 4, 4, 5, True, "value borrowed here after move")],
        ["borrow occurs due to deref coercion"],
        ["consider cloning", "3 |     let w = v.clone();", "  |              ++++++++"]),
    Row("a text that hangs", "a.rs", "let x: String = 1;\n",
        """\
error[E0308]: mismatched types
 --> a.rs:1:17
  |
1 | let x: String = 1;
  |        ------   ^ expected `String`, found integer
  |        |
  |        expected due to this
""",
        [(1, 7, 1, 13, False, "expected due to this"), (1, 16, 1, 17, True, "expected `String`, found integer")]),
    Row("a span of rows", "a.rs", "fn f() -> u32 {\n    if x {\n        1\n    }\n}\n",
        """\
error[E0308]: mismatched types
 --> a.rs:2:5
  |
1 |   fn f() -> u32 {
  |             --- expected `u32`
2 | /     if x {
3 | |         1
4 | |     }
  | |_____^ expected `u32`, found `()`
""",
        [(1, 10, 1, 13, False, "expected `u32`"), (2, 4, 4, 5, True, "expected `u32`, found `()`")]),
    Row("a mark drawn over another", "a.rs", "foo(bar)\n",
        """\
error: two labels
 --> a.rs:1:5
  |
1 | foo(bar)
  | ----^^^-
  | |   |
  | |   inner
  | outer
""",
        [(1, 0, 1, 8, False, "outer"), (1, 4, 1, 7, True, "inner")]),
    Row("two texts below one run", "a.rs", "f(a, b);\n",
        """\
error: two texts
 --> a.rs:1:1
  |
1 | f(a, b);
  | ^^^^^^^
  | |    |
  | |    the second
  | the first
""",
        [(1, 0, 1, 7, True, "the first"), (1, 5, 1, 7, True, "the second")]),
    Row("a mark, and what would be inserted", "a.c", "void f(void) {\n  int n;\n}\n",
        """\
a.c:2:8: note: initialize the variable 'n' to silence this warning
    2 |   int n;
      |        ^
      |         = 0
""",
        [(2, 7, 2, 8, True, None), (2, 8, 2, 8, False, "help: = 0")]),
    Row("ranges beside the caret", "a.c", "int f(int a, int b) { return a + b; }\n",
        """\
a.c:1:32: warning: no sum [-Wx]
    1 | int f(int a, int b) { return a + b; }
      |                              ~ ^ ~
""",
        [(1, 29, 1, 30, False, None), (1, 31, 1, 32, True, None), (1, 33, 1, 34, False, None)]),
    Row("texts that hang from two marks, and what would be put there", "a.c", '#include <stdio.h>\nvoid f(int n) {\n  printf("%s", n);\n}\n',
        """\
a.c:3:12: warning: format '%s' expects argument of type 'char *' [-Wformat=]
    3 |   printf("%s", n);
      |           ~^   ~
      |            |   |
      |            |   int
      |            char *
      |           %d
""",
        [(3, 10, 3, 12, True, "char *"), (3, 15, 3, 16, False, "int"), (3, 10, 3, 10, False, "help: %d")]),
    Row("a tab printed as four blanks", "a.rs", "\tlet x = 1;\n",
        """\
warning: unused variable: `x`
 --> a.rs:1:6
  |
1 |     let x = 1;
  |         ^ help: prefix it with an underscore: `_x`
""",
        [(1, 5, 1, 6, True, "help: prefix it with an underscore: `_x`")]),
    Row("characters of two cells", "a.rs", "let 日本 = x;\n",
        """\
error: no such name
 --> a.rs:1:10
  |
1 | let 日本 = x;
  |            ^ no `x`
""",
        [(1, 9, 1, 10, True, "no `x`")]),
    Row("a row that is cut", "a.rs", "a" * 28 + " bbb x ccc " + "d" * 30 + "\n",
        """\
error: no such name
 --> a.rs:1:34
  |
1 | ...bbb x ccc...
  |        ^ not found
""",
        [(1, 33, 1, 34, True, "not found")]),
    Row("a row without a gutter, and a line of text", "T.java", "int x = y;\n",
        """\
T.java:1: error: cannot find symbol
int x = y;
        ^
  symbol: variable y
""",
        [(1, 8, 1, 9, True, None)], kept=["symbol: variable y"]),
    Row("a hook", "a.js", "let x = 1;\n",
        """\
  × oops
   ╭─[a.js:1:5]
 1 │ let x = 1;
   ·     ┬
   ·     ╰── here
   ╰────
""",
        [(1, 4, 1, 5, True, "here")]),
    Row("rows of another file", "a.rs", "g();\n",
        """\
error[E0425]: cannot find function `g`
  --> a.rs:1:1
   |
 1 | g();
   | ^ not found
   |
  ::: b.rs:7:3
   |
 7 |   fn h() {}
   |      - similar
   = help: a function with a similar name exists
""",
        [(1, 0, 1, 1, True, "not found")],
        ["at b.rs:7:3", " 7 |   fn h() {}", "   |      - similar"], ["a function with a similar name exists"]),
    Row("a label in another file, which is there", "a.rs",
        "g();\n",
        """\
error[E0425]: cannot find function `g`
  --> a.rs:1:1
   |
 1 | g();
   | ^ not found
   |
  ::: b.rs:2:4
   |
 2 | fn h() {}
   |    - similar
   = help: a function with a similar name exists
""",
        [(1, 0, 1, 1, True, "not found")],
        ["at b.rs:2:4"], ["a function with a similar name exists"],
        others=[("b.rs", "\nfn h() {}\n")], asides=[("b.rs", 2, 3, 2, 4, "similar")]),
    Row("labels in two other files, of which one has other rows", "a.rs",
        "x\n",
        """\
error: twice
 --> a.rs:1:1
  |
1 | x
  | ^
  |
 ::: b.rs:1:1
  |
1 | y z
  | - - second
  | |
  | first
  |
 ::: c.rs:1:1
  |
1 | q
  | - third
  |
 ::: a.rs:1:1
  |
1 | x
  | - own
""",
        [(1, 0, 1, 1, True, None), (1, 0, 1, 1, False, "own")],
        ["at b.rs:1:1", "at c.rs:1:1", "1 | q", "  | - third"],
        others=[("b.rs", "y z\n"), ("c.rs", "other\n")],
        asides=[("b.rs", 1, 0, 1, 1, "first"), ("b.rs", 1, 2, 1, 3, "second")]),
    Row("a row that isn't the source's", "a.rs", "let y = 2;\n",
        """\
error: no such name
 --> a.rs:1:9
  |
1 | let x = q;
  |         ^ not found
""",
        [], ["1 | let x = q;", "  |         ^ not found"]),
    Row("notes of several lines, and of another word", "a.rs", "x\n",
        """\
error: x
 --> a.rs:1:1
  |
1 | x
  | ^
  |
  = note: expected `u32`
             found `i32`
  = warning: old
""",
        [(1, 0, 1, 1, True, None)], ["expected `u32`", "   found `i32`", "warning: old"]),
    Row("an edit below a drawing", "a.c", "    p.color = 2;\n",
        """\
a.c:1:6: error: no such name
    1 |     p.color = 2;
      |     ~^
      |      ->
fix-it:"a.c":{1:6-1:7}:"->"
""",
        [(1, 4, 1, 6, True, None), (1, 5, 1, 5, False, "help: ->")], kept=['fix-it:"a.c":{1:6-1:7}:"->"']),
    Row("two characters are marked", "a.rs", "    return (1);\n",
        """\
warning: unnecessary parentheses
 --> a.rs:1:12
  |
1 |     return (1);
  |            ^ ^
""",
        [(1, 11, 1, 12, True, None), (1, 13, 1, 14, True, None)]),
    Row("the mark is where the column isn't, which counts bytes", "a.c", 'f("\u65e5", x);\n',
        """\
a.c:1:10: error: no such name
    1 | f("\u65e5", x);
      |         ^
""",
        [(1, 7, 1, 8, True, None)]),
    Row("the mark is set by the column, which counts bytes", "a.c", "    /* \U0001d54f */ p[0] = 1 / 0;\n",
        """\
a.c:1:25: error: Division by zero. [zerodiv]
    /* \U0001d54f */ p[0] = 1 / 0;
                        ^
""",
        [(1, 21, 1, 22, True, None)], unit="bytes"),
    Row("the same in a row with a tab, printed as a blank", "a.c", "\tf(\"\u65e5\", x);\n",
        """\
a.c:1:11: error: no such name
 f("\u65e5", x);
          ^
""",
        [(1, 8, 1, 9, True, None)], unit="bytes"),
    Row("the mark is right where the column counts bytes", "a.c", 'f("\u65e5", x);\n',
        """\
a.c:1:10: error: no such name
    1 | f("\u65e5", x);
      |         ^
""",
        [(1, 7, 1, 8, True, None)], unit="bytes"),
    Row("the message is below", "M.hs", "import Data.Nope\n",
        """\
M.hs:1:1: error:
    Could not find module Data.Nope
    Use -v to see the files.
  |
1 | import Data.Nope
  | ^^^^^^^^^^^^^^^^
""",
        [(1, 0, 1, 16, True, None)], kept=["Could not find module Data.Nope", "Use -v to see the files."]),
    Row("marks without a row", "a.c", "int x;\n", "a.c:1:5: error: x\n      |     ^ nobody's\n", read=False),
    Row("a bar in prose", "a.c", "int x;\n", "a.c:1:5: error: x\n    1 | int x;\n      |     ^\n  one | two\n", read=False),
    Row("a gutter that changes", "a.c", "int x;\n", "a.c:1:5: error: x\n    1 | int x;\n       |     ^\n", read=False),
    Row("a number past 32 bits", "a.c", "int x;\n", "a.c:1:5: error: x\n    4294967296 | int x;\n      |     ^\n", read=False),
]
