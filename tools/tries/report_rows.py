"""Runs of the program `report`, which `try_report.py` makes: documents and their drawings, settings and what is written,
errors and the lines that are printed for them, right and wrong arguments. `rows()` gives them one by one.

Arguments are separated by blanks."""

NO_DOCUMENT = "report: input is no document\n"
BAD_ARGUMENTS = "report: bad arguments\n"

# the colors of the theme `unicode`: of an error, a file's name, a row's number and a label; and their end
RED, BLUE, DIM, PINK = "\x1b[38;2;225;80;80;1m", "\x1b[38;2;92;157;255;1m", "\x1b[2m", "\x1b[38;2;246;87;248m"
END = "\x1b[0m"

OOPS = ('{"files":[{"name":"a.js","source":"foo\\nbar\\nbaz"}],'
        '"reports":[{"file":0,"message":"Oops",'
        '"labels":[{"start":[2,1],"end":[2,4],"text":"here"}]}]}')
BLOCK = ('{"files":[{"name":"b.js","source":"a {\\n  b\\n}\\n"}],'
         '"reports":[{"file":0,"message":"m",'
         '"labels":[{"start":[1,3],"end":[3,2],"text":"block"}]}]}')
TABBED = ('{"files":[{"name":"t","source":"é\\txyz"}],'
          '"reports":[{"file":0,"message":"m","labels":[{"start":[1,5],"end":[1,6]}]}]}')
OOPS_DRAWN = ("\n"
              "  x Oops\n"
              "   ,-[a.js:2:1]\n"
              " 1 | foo\n"
              " 2 | bar\n"
              "   : ^|^\n"
              "   :  `-- here\n"
              " 3 | baz\n"
              "   `----\n")
OOPS_JSON = ('{"message": "Oops","severity": "error","filename": "a.js",'
             '"labels": [{"label": "here","span": {"offset": 4,"length": 3,"line": 2,'
             '"column": 1}}]}\n')

# documents, and their drawings
DRAWN = [
    (OOPS, OOPS_DRAWN),
    ('{"files":[],"reports":[]}', ""),
    ('{"files":[{"name":"e","source":""}],'
     '"reports":[{"file":0,"message":"m","labels":[{"start":[1,1],"end":[1,1]}]}]}',
     "\n"
     "  x m\n"
     "   ,-[e:1:1]\n"
     "   `----\n"),
    ('{"files":[{"name":"a","source":"ab"}],'
     '"reports":[{"file":0,"message":"m",'
     '"labels":[{"start":[1,3],"end":[1,3],"text":"t"}]}]}',
     "\n"
     "  x m\n"
     "   ,-[a:1:3]\n"
     " 1 | ab\n"
     "   `----\n"),
    (BLOCK,
     "\n"
     "  x m\n"
     "   ,-[b.js:1:3]\n"
     " 1 | ,-> a {\n"
     " 2 | |     b\n"
     " 3 | |-> }\n"
     "   : `---- block\n"
     "   `----\n"),
    ('{"files":[{"name":"b.js","source":"a {\\n  b\\n}\\n"}],'
     '"reports":[{"file":0,"message":"m",'
     '"labels":[{"start":[1,3],"end":[3,2],"text":"block\\nhere"}]}]}',
     "\n"
     "  x m\n"
     "   ,-[b.js:1:3]\n"
     " 1 | ,-> a {\n"
     " 2 | |     b\n"
     " 3 | |-> }\n"
     "   : `--| block\n"
     "   :    | here\n"
     "   `----\n"),
    ('{"files":[{"name":"f","source":"a\\nb\\nc\\nd\\n"}],'
     '"reports":[{"file":0,"message":"m","labels":[{"start":[1,1],"end":[2,1]}]}]}',
     "\n"
     "  x m\n"
     "   ,-[f:1:1]\n"
     " 1 | a\n"
     "   : ^^\n"
     " 2 | b\n"
     " 3 | c\n"
     "   `----\n"),
    (TABBED,
     "\n"
     "  x m\n"
     "   ,-[t:1:6]\n"
     " 1 | é   xyz\n"
     "   :       ^\n"
     "   `----\n"),
    ('{"files":[{"name":"w","source":"日本 x"}],'
     '"reports":[{"file":0,"message":"m",'
     '"labels":[{"start":[1,2],"end":[1,3],"text":"w"}]}]}',
     "\n"
     "  x m\n"
     "   ,-[w:1:4]\n"
     " 1 | 日本 x\n"
     "   :   ^|\n"
     "   :    `-- w\n"
     "   `----\n"),
    ('{"files":[{"name":"s","source":"abcdef"}],'
     '"reports":[{"file":0,"message":"m",'
     '"labels":[{"start":[1,1],"end":[1,5],"text":"A"},{"start":[1,3],"end":[1,7],"text":'
     '"B"}]}]}',
     "\n"
     "  x m\n"
     "   ,-[s:1:1]\n"
     " 1 | abcdef\n"
     "   : ^^|^^|\n"
     "   :   |  `-- B\n"
     "   :   `-- A\n"
     "   `----\n"),
    ('{"files":[{"name":"t","source":"a\\nb\\nc\\nd\\ne\\nf\\ng\\nh\\ni\\nj\\n"}],'
     '"reports":[{"file":0,"message":"m",'
     '"labels":[{"start":[1,1],"end":[1,2]},{"start":[4,1],"end":[4,2]}]}]}',
     "\n"
     "  x m\n"
     "   ,-[t:1:1]\n"
     " 1 | a\n"
     "   : ^\n"
     " 2 | b\n"
     " 3 | c\n"
     " 4 | d\n"
     "   : ^\n"
     " 5 | e\n"
     "   `----\n"),
    ('{"files":[{"name":"t","source":"a\\nb\\nc\\nd\\ne\\nf\\ng\\nh\\ni\\nj\\n"}],'
     '"reports":[{"file":0,"message":"m",'
     '"labels":[{"start":[1,1],"end":[1,2]},{"start":[5,1],"end":[5,2]}]}]}',
     "\n"
     "  x m\n"
     "   ,-[t:1:1]\n"
     " 1 | a\n"
     "   : ^\n"
     " 2 | b\n"
     "   `----\n"
     "   ,-[t:5:1]\n"
     " 4 | d\n"
     " 5 | e\n"
     "   : ^\n"
     " 6 | f\n"
     "   `----\n"),
    ('{"files":[{"name":"c","source":"ab\\r\\ncd"}],'
     '"reports":[{"file":0,"message":"m","labels":[{"start":[1,4],"end":[1,4]}]}]}',
     "\n"
     "  x m\n"
     "   ,-[c:1:3]\n"
     " 1 | ab\n"
     "   :    ^\n"
     " 2 | cd\n"
     "   `----\n"),
    ('{"files":[{"name":"r","source":"a\\rb\\nc"}],'
     '"reports":[{"file":0,"message":"m","labels":[{"start":[2,1],"end":[2,2]}]}]}',
     "\n"
     "  x m\n"
     "   ,-[r:2:1]\n"
     " 1 | a\rb\n"
     "   :   ^\n"
     " 2 | c\n"
     "   `----\n"),
    ('{"files":[{"name":"u","source":"\ufeffab"}],'
     '"reports":[{"file":0,"message":"m","labels":[{"start":[1,1],"end":[1,2]}]}]}',
     "\n"
     "  x m\n"
     "   ,-[u:1:4]\n"
     " 1 | \ufeffab\n"
     "   : ^\n"
     "   `----\n"),
    ('{"files":[{"name":"m","source":"a\\nb\\n"}],'
     '"reports":[{"file":0,"message":"m",'
     '"labels":[{"start":[1,1],"end":[2,2]},{"start":[1,1],"end":[2,2],"text":"z"}]}]}',
     "\n"
     "  x m\n"
     "   ,-[m:1:1]\n"
     " 1 | ,--> a\n"
     " 2 | `--> b\n"
     "   : `----- z\n"
     "   `----\n"),
    ('{"files":[{"name":"z","source":"\\u001b[31mab\\tc"}],'
     '"reports":[{"file":0,"message":"m","labels":[{"start":[1,9],"end":[1,10]}]}]}',
     "\n"
     "  x m\n"
     "   ,-[z:1:9]\n"
     " 1 | \x1b[31mab  c\n"
     "   :     ^\n"
     "   `----\n"),
    ('{"files":[{"name":"q","source":"abcd"}],'
     '"reports":[{"file":0,"message":"m",'
     '"labels":[{"start":[1,2],"end":[1,3],"text":"k"},{"start":[1,2],"end":[1,3],"text":'
     '"k"}]}]}',
     "\n"
     "  x m\n"
     "   ,-[q:1:2]\n"
     " 1 | abcd\n"
     "   :  ||\n"
     "   :  `-- k\n"
     "   :  `-- k\n"
     "   `----\n"),
    ('{"files":[{"name":"e","source":"e\u0301x"}],'
     '"reports":[{"file":0,"message":"m","labels":[{"start":[1,2],"end":[1,3]}]}]}',
     "\n"
     "  x m\n"
     "   ,-[e:1:2]\n"
     " 1 | e\u0301x\n"
     "   :  ^\n"
     "   `----\n"),
    ('{"files":[{"name":"c","source":"\\u0007\x85x"}],'
     '"reports":[{"file":0,"message":"m","labels":[{"start":[1,3],"end":[1,4]}]}]}',
     "\n"
     "  x m\n"
     "   ,-[c:1:4]\n"
     " 1 | \x07\x85x\n"
     "   :   ^\n"
     "   `----\n"),
    ('{"files":[{"name":"k","source":"a\\rb"}],'
     '"reports":[{"file":0,"message":"m","labels":[{"start":[1,1],"end":[2,2]}]}]}',
     "\n"
     "  x m\n"
     "   ,-[k:1:1]\n"
     " 1 | a\rb\n"
     "   : ^^^\n"
     "   `----\n"),
    ('{"files":[{"name":"k","source":"a\\r"}],'
     '"reports":[{"file":0,"message":"m","labels":[{"start":[1,1],"end":[1,2]}]}]}',
     "\n"
     "  x m\n"
     "   ,-[k:1:1]\n"
     " 0 | a\r\n"
     "   : ^\n"
     "   `----\n"),
    ('{"version":2,"files":[{"name":"a.js","source":"foo\\nbar\\nbaz"}],'
     '"reports":[{"file":0,"message":"Oops","labels":[{"bytes":[4,7],"text":"here"}]}]}',
     OOPS_DRAWN),
    ('{"files":[{"name":"a.js","source":"foo\\nbar\\nbaz"}],'
     '"reports":[{"file":0,"message":"Oops",'
     '"labels":[{"start":[2,1],"end":[2,4],"text":"here"}]}],"version":2}',
     OOPS_DRAWN),
    ('{"files":[{"name":"a.js","source":"foo\\nbar\\nbaz"}],'
     '"reports":[{"file":0,"message":"Oops",'
     '"labels":[{"start":[2,1],"end":[2,4],"text":"here"}],"help":""}]}',
     "\n"
     "  x Oops\n"
     "   ,-[a.js:2:1]\n"
     " 1 | foo\n"
     " 2 | bar\n"
     "   : ^|^\n"
     "   :  `-- here\n"
     " 3 | baz\n"
     "   `----\n"
     "  help: \n"),
    ('{"files":[{"name":"src/app.js","source":"import { a } from \\"x\\";\\n\\n'
     'function f(b) {\\n\\treturn a + c;\\n}\\n"}],'
     '"reports":[{"file":0,"message":"\'c\' is not defined.","severity":"warning","scope":'
     '"eslint","number":"no-undef","help":"Declare it or import it.",'
     '"labels":[{"start":[4,13],"end":[4,14],"text":"not found"},{"start":[3,10],"end":'
     '[3,11],"text":"in this function"}]}]}',
     "\n"
     "  ! eslint(no-undef): 'c' is not defined.\n"
     "   ,-[src/app.js:3:10]\n"
     " 2 | \n"
     " 3 | function f(b) {\n"
     "   :          |\n"
     "   :          `-- in this function\n"
     " 4 |     return a + c;\n"
     "   :                |\n"
     "   :                `-- not found\n"
     " 5 | }\n"
     "   `----\n"
     "  help: Declare it or import it.\n"),
]

# words, documents, and what is written
SETTINGS = [
    ("--width 0", '{"files":[{"name":"a","source":"ab"}],"reports":[{"file":0,"message":"ab"}]}',
     "\n"
     "  x a\n"
     "  | b\n"),
    ("--theme unicode_nocolor", OOPS,
     "\n"
     "  × Oops\n"
     "   ╭─[a.js:2:1]\n"
     " 1 │ foo\n"
     " 2 │ bar\n"
     "   · ─┬─\n"
     "   ·  ╰── here\n"
     " 3 │ baz\n"
     "   ╰────\n"),
    ("--theme unicode", BLOCK,
     "\n"
     f"  {RED}×{END} {RED}m{END}\n"
     f"   ╭─[{BLUE}b.js{END}:1:3]\n"
     f" {DIM}1{END} │ {PINK}╭{END}{PINK}─{END}{PINK}▶{END} a {{\n"
     f" {DIM}2{END} │ {PINK}│{END}     b\n"
     f" {DIM}3{END} │ {PINK}├{END}{PINK}─{END}{PINK}▶{END} }}\n"
     f"   · {PINK}╰{END}{PINK}───{END}{PINK}─{END} {PINK}block{END}\n"
     "   ╰────\n"),
    ("--tabs 16", TABBED,
     "\n"
     "  x m\n"
     "   ,-[t:1:6]\n"
     " 1 | é               xyz\n"
     "   :                   ^\n"
     "   `----\n"),
    ("--tabs 1", '{"files":[{"name":"a","source":"a\\tb"}],'
     '"reports":[{"file":0,"message":"m","labels":[{"start":[1,3],"end":[1,4]}]}]}',
     "\n"
     "  x m\n"
     "   ,-[a:1:3]\n"
     " 1 | a b\n"
     "   :   ^\n"
     "   `----\n"),
    ("--json", OOPS, OOPS_JSON),
    ("--make 0", "", "0 reports, 0 bytes, 0 lines\n"),
    ("--make 1", "", "1 reports, 58 bytes, 7 lines\n"),
    ("--make 2", "", "2 reports, 132 bytes, 16 lines\n"),
]

# words and inputs that are refused, the exit status, and the line that says why
REFUSED = [
    ("", '{"files":[{"name":"a","source":"ab"}],'
     '"reports":[{"file":0,"message":"m",'
     '"labels":[{"start":[1,99],"end":[1,99]}]},{"file":5,"message":"m"}]}',
     1, "report: report 0: label 0: start is no position\n"),
    ("", '{"files":[{"name":"a","source":"ab"}],'
     '"reports":[{"file":0,"message":"m","labels":[{"start":[1,3],"end":[1,1]}]}]}',
     1, "report: report 0: label 0: end 0 before start 2\n"),
    ("", '{"files":[{"name":"a","source":"ab"}],'
     '"reports":[{"file":7,"message":"m","labels":[{"start":[9,9],"end":[9,9]}]}]}',
     1, "report: report 0: unknown file\n"),
    ("", '{"version":2,"files":[{"name":"a","source":"é"}],'
     '"reports":[{"file":0,"message":"m","labels":[{"bytes":[1,2]}]}]}',
     1, "report: report 0: label 0: start is no position\n"),
    ("", '{"version":2,"files":[{"name":"a","source":"abcd"}],'
     '"reports":[{"file":0,"message":"m","labels":[{"bytes":[3,2]}]}]}',
     1, "report: report 0: label 0: end 2 before start 3\n"),
    ("", '{"version":2,"files":[{"name":"u","source":"\ufeffab"}],'
     '"reports":[{"file":0,"message":"m","labels":[{"bytes":[0,1]}]}]}',
     1, "report: report 0: label 0: end is no position\n"),
    ("", '{"files":[', 3, NO_DOCUMENT),
    ("", "", 3, NO_DOCUMENT),
    ("", '{"files":[{"name":"a","source":"ab"}],'
     '"reports":[{"file":0,"message":"m","labels":[{"start":[0,1],"end":[1,2]}]}]}',
     3, NO_DOCUMENT),
    ("", '{"files":[{"name":"a","source":"ab"}],'
     '"reports":[{"file":0,"message":"m","labels":[{"start":[1,1],"end":[1,2],"more":1}]}]}',
     3, NO_DOCUMENT),
    ("", '{"files":[{"name":"a.js","source":"foo\\nbar\\nbaz"}],'
     '"reports":[{"file":0,"message":"Oops","labels":[{"bytes":[4,7],"text":"here"}]}]}',
     3, NO_DOCUMENT),
    ("", '{"version":2,"files":[{"name":"a.js","source":"foo\\nbar\\nbaz"}],'
     '"reports":[{"file":0,"message":"Oops",'
     '"labels":[{"bytes":[4,7],"text":"here","start":[2,1],"end":[2,4]}]}]}',
     3, NO_DOCUMENT),
    ("", '{"version":3,"files":[{"name":"a.js","source":"foo\\nbar\\nbaz"}],'
     '"reports":[{"file":0,"message":"Oops","labels":[{"bytes":[4,7],"text":"here"}]}]}',
     3, NO_DOCUMENT),
    ("--width 080", OOPS, 2, BAD_ARGUMENTS),
    ("--make 5001", OOPS, 2, BAD_ARGUMENTS),
    ("--tabs 17", OOPS, 2, BAD_ARGUMENTS),
]

# What tells the theme, the width and the tab stops of a drawing: a tab in a row that a label goes over, and two messages. Of a width
# a title's lines have two columns less, and four of them are before the text: so at 80 a message of 74 columns has one line, and
# one of 75 has two.
ONE_LINE = "a" * 40 + " " + "b" * 33
TELLING = ('{"files":[{"name":"b.js","source":"a {\\n\\tb\\n}\\n"}],"reports":['
           '{"file":0,"message":"' + ONE_LINE + '","labels":[{"start":[1,3],"end":[3,2],"text":"block"}]},'
           '{"file":0,"message":"' + ONE_LINE + 'b"}]}')
NARROW = ('{"files":[{"name":"b.js","source":"a {\\n\\tb\\n}\\n"}],"reports":['
          '{"file":0,"message":"ab","labels":[{"start":[1,3],"end":[3,2],"text":"block"}]}]}')


def telling(tab, long):
    """The plain drawing of TELLING: with this many blanks for the tab, and the longer title in these lines."""
    return (f"\n  x {ONE_LINE}\n"
            "   ,-[b.js:1:3]\n"
            " 1 | ,-> a {\n"
            f" 2 | |   {tab * ' '}b\n"
            " 3 | |-> }\n"
            "   : `---- block\n"
            "   `----\n"
            f"\n  x {long}\n")


# words that are a command, documents, and what is written
COMMANDS = [
    ("", TELLING, telling(4, "a" * 40 + "\n  | " + "b" * 34)),
    ("--theme none", TELLING, telling(4, "a" * 40 + "\n  | " + "b" * 34)),
    ("--theme unicode", TELLING,
     "\n"
     f"  {RED}×{END} {RED}{ONE_LINE}{END}\n"
     f"   ╭─[{BLUE}b.js{END}:1:3]\n"
     f" {DIM}1{END} │ {PINK}╭{END}{PINK}─{END}{PINK}▶{END} a {{\n"
     f" {DIM}2{END} │ {PINK}│{END}       b\n"
     f" {DIM}3{END} │ {PINK}├{END}{PINK}─{END}{PINK}▶{END} }}\n"
     f"   · {PINK}╰{END}{PINK}───{END}{PINK}─{END} {PINK}block{END}\n"
     "   ╰────\n"
     "\n"
     f"  {RED}×{END} {RED}{'a' * 40}\n"
     f"  {RED}│{END} {'b' * 34}{END}\n"),
    ("--json --tabs 16 --width 0 --theme unicode_nocolor", OOPS, OOPS_JSON),
    # (the same but for `--json`, with which no theme, width or tab stop is seen)
    ("--tabs 16 --width 0 --theme unicode_nocolor", NARROW,
     "\n"
     "  × a\n"
     "  │ b\n"
     "   ╭─[b.js:1:3]\n"
     " 1 │ ╭─▶ a {\n"
     f" 2 │ │   {16 * ' '}b\n"
     " 3 │ ├─▶ }\n"
     "   · ╰──── block\n"
     "   ╰────\n"),
    ("--width 999999999 --tabs 1", TELLING, telling(1, ONE_LINE + "b")),
    ("--make 0", "", "0 reports, 0 bytes, 0 lines\n"),
]

# words that are no command
NO_COMMANDS = [
    "--make 5001", "--make", "--make 1 --json", "--json --make 1", "--width x", "--width 080",
    "--width 00", "--width +8", "--width 1000000000", "--width ", "--width", "--width=80",
    "--theme none --theme none", "--theme plain", "--tabs 0", "--tabs 17", "--tabs",
    "--tabs 4 --tabs 4", "--json --json", "--", "",
]


def rows():
    """Each run: what it is, the exit status, the arguments, the input, and what the output and the error output receive."""
    for at, (given, out) in enumerate(DRAWN):
        yield f"DRAWN, row {at}", 0, [], given.encode(), out.encode(), b""
    for line, given, out in SETTINGS + COMMANDS:
        yield f"words {line!r}", 0, arguments(line), given.encode(), out.encode(), b""
    for at, (line, given, status, err) in enumerate(REFUSED):
        yield f"REFUSED, row {at}", status, arguments(line), given.encode(), b"", err.encode()
    for line in NO_COMMANDS:
        yield f"no command {line!r}", 2, line.split(" "), b"", b"", BAD_ARGUMENTS.encode()


def arguments(line):
    return line.split(" ") if line else []
