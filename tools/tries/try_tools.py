#!/usr/bin/env python3
"""Runs real tools on small faulty sources, once so that they print JSON (or XML) and once so that they print lines, gives both to
`girzohal` and compares where findings are.

usage: try_tools.py PROGRAM [TOOL]..      (crates/girzohal/out/girzohal after `rt run` there)

Tools that aren't installed are skipped, and so are those that can't print JSON. The last line is `N passed, M failed`; the status is 0 if
M is 0."""
import collections
import os
import re
import shutil
import subprocess
import sys
import tempfile

C = """\
#include <stdio.h>
/* Straße */
static int total(const int *é, int n)
{
\tint i;
    int unused = 3;
    printf("%s\\n", n); /* ü */
\tif (n = 1) return é[n] + totl;
\treturn "𝕏";
}
"""
CPP = """\
#include <string>
struct item { int price; };
int total(item é) {
\treturn é.pric + std::strin("x");
}
int other(const item &x) { int y; return x.price == "é"; }
"""
CPPCHECK = """\
#include <stdlib.h>
int total(int n)
{
    int *p = malloc(4); /* é */
    int a[2];
	a[2] = n;
    if (n > 3) { return a[0]; }
    /* 𝕏 */ p[0] = 1 / 0;
    return *p;
}
"""
RUST = """\
fn total(é: i32) -> i32 {
    let unused = 3;
\tlet x: &str = é;
    "𝕏".len() + totl
}
pub fn other() { let mut y = 1; println!("{}", y); return 2; }
"""
CLIPPY = """\
pub fn total(é: &Vec<i32>) -> i32 {
    let mut sum = 0; /* 𝕏 */ for i in 0..é.len() { sum = sum + é[i]; }
\tif é.len() == 0 { println!("{}", "é"); }
    return sum;
}
"""
SHELL = """\
#!/bin/sh
for f in $(ls *.txt); do
\techo "é" $f
    cp $f "𝕏"$1
done
[ $x == 1 ] && cd sub
read line
"""
PYTHON = """\
import os, sys

def total(é):
    x = 1
    if é == None: return totl
    é = "𝕏" ; y = lambda: é; assert é
    try:
        exec("1")
    except:
        pass

class a: pass
"""
TYPED = """\
def total(é: int) -> str:
    x: str = é
    return é + "ü"

total("𝕏", 3)
"""
SCRIPT = """\
var x = 1;
function total(é) {
\tif (é == 1) { return totl; }
    let 𝕏 = "ü"; debugger;
}
"""
PHP = """\
<?php
function total( $é ){
    if($é==1) { return   TRUE; }
    $x = array(1,2);
    return "ü" . $é;
}
"""
RUBY = """\
def total( é )
  x = 1
  if é == nil then return "ü" end
  puts "𝕏" ; y=2
end
"""
JAVA = """\
package x;
import java.util.*;
public class A {
\tint Total = 1;
    /** é */ public int total(int É) { if (É == 1) return 2; return Total; }
}
"""
GO = """\
package main

import "fmt"

type T struct {
\tA int `json:"a" json`
}

func main() {
\tx := 1
\t_ = "é𝕏"; x = x
\tfmt.Printf("é %s %d\\n", x)
\tfmt.Println("𝕏 %d", x)
}
"""
CARGO = '[package]\nname = "x"\nversion = "0.1.0"\nedition = "2021"\n[lib]\npath = "a.rs"\n'

# A tool, its files, its words for JSON and for lines, girzohal's options for the lines, how columns are compared, and whether its lines
# have notes that are findings.
Tool = collections.namedtuple("Tool", "name files json lines options columns has_notes", defaults=((), "same", True))
TOOLS = [
    Tool("gcc", {"a.c": C}, "gcc -fsyntax-only -Wall -Wextra -fdiagnostics-format=json a.c", "gcc -fsyntax-only -Wall -Wextra a.c", ("--tool", "gcc"), "within", False),
    Tool("g++", {"a.cpp": CPP}, "g++ -fsyntax-only -Wall -Wextra -fdiagnostics-format=json a.cpp", "g++ -fsyntax-only -Wall -Wextra a.cpp", ("--tool", "gcc"), "within", False),
    Tool("rustc", {"a.rs": RUST}, "rustc --crate-type lib --emit metadata --out-dir out --error-format json a.rs", "rustc --crate-type lib --emit metadata --out-dir out a.rs", ("--tool", "rustc"), "same", False),
    Tool("cargo", {"a.rs": RUST, "Cargo.toml": CARGO}, "cargo check --offline --message-format json", "cargo check --offline", ("--tool", "cargo"), "same", False),
    Tool("cargo-clippy", {"a.rs": CLIPPY, "Cargo.toml": CARGO}, "cargo clippy --offline --message-format json", "cargo clippy --offline", ("--tool", "cargo"), "same", False),
    Tool("cppcheck", {"a.c": CPPCHECK}, "cppcheck --enable=warning,style --xml a.c", "cppcheck --enable=warning,style a.c", ("--columns", "bytes"), "same", True),
    Tool("shellcheck", {"a.sh": SHELL}, "shellcheck -f json a.sh", "shellcheck -f gcc a.sh", ("--tool", "shellcheck")),
    Tool("shellcheck", {"a.sh": SHELL}, "shellcheck -f json1 a.sh", "shellcheck -f gcc a.sh", ("--tool", "shellcheck")),
    Tool("shellcheck", {"a.sh": SHELL}, "shellcheck -f checkstyle a.sh", "shellcheck -f gcc a.sh", ("--tool", "shellcheck")),
    Tool("pylint", {"a.py": PYTHON}, "pylint --output-format=json a.py", "pylint --output-format=text a.py", ("--tool", "pylint")),
    Tool("pylint", {"a.py": PYTHON}, "pylint --output-format=json2 a.py", "pylint --output-format=text a.py", ("--tool", "pylint")),
    Tool("bandit", {"a.py": PYTHON}, "bandit -q -f json a.py", "bandit -q -f custom --msg-template {relpath}:{line}:{msg} a.py", ("--shape", "{name}:{line}:{message}"), "none"),
    Tool("eslint", {"a.js": SCRIPT}, "eslint --no-eslintrc --env es2017 --parser-options=ecmaVersion:2017 --rule no-undef:2 --rule no-debugger:1 --rule eqeqeq:1 --rule no-unused-vars:2 -f json a.js",
         "eslint --no-eslintrc --env es2017 --parser-options=ecmaVersion:2017 --rule no-undef:2 --rule no-debugger:1 --rule eqeqeq:1 --rule no-unused-vars:2 -f unix a.js", ("--tool", "eslint")),
    Tool("phpcs", {"a.php": PHP}, "phpcs --report=json a.php", "phpcs --report=emacs a.php"),
    Tool("phpcs", {"a.php": PHP}, "phpcs --report=checkstyle a.php", "phpcs --report=emacs a.php"),
    Tool("rubocop", {"a.rb": RUBY}, "rubocop --cache false --format json a.rb", "rubocop --cache false --format emacs a.rb"),
    Tool("checkstyle", {"A.java": JAVA}, "checkstyle -c /google_checks.xml -f xml A.java", "checkstyle -c /google_checks.xml -f plain A.java", ("--columns", "cells")),
    Tool("mypy", {"a.py": TYPED}, "mypy --no-incremental --output json a.py", "mypy --no-incremental --show-column-numbers a.py", ("--tool", "mypy")),
    Tool("go", {"main.go": GO, "go.mod": "module x\n\ngo 1.19\n"}, "go vet -json .", "go vet .", ("--columns", "bytes")),
    Tool("ruff", {"a.py": PYTHON}, "ruff check --no-cache --output-format json a.py", "ruff check --no-cache --output-format concise a.py"),
]


def output(words, room):
    """What a tool prints, on standard output and on the error output."""
    env = {**os.environ, "LC_ALL": "C.UTF-8", "CARGO_TERM_COLOR": "never", "GOFLAGS": "-mod=mod", "GOPROXY": "off", "CARGO_TARGET_DIR": os.path.join(room, "target"),
           "NODE_PATH": os.environ.get("NODE_PATH", "/usr/share/nodejs")}
    ran = subprocess.run(words.split(" "), stdin=subprocess.DEVNULL, capture_output=True, cwd=room, env=env, timeout=300)
    return ran.stdout, ran.stderr


def places(program, text, room, options):
    """The places that girzohal reads: file, row, column, end row, end column, severity; and how the run ended."""
    ran = subprocess.run([program, "--to", "problems", "--root", room, "--fail-on", "never", *options], input=text, capture_output=True, cwd=room, timeout=60)
    lines = (re.match(r"(.*?):(\d+):(\d+):(\d+):(\d+): (\w+)", line) for line in ran.stdout.decode("utf-8", "replace").split("\n"))
    return sorted((os.path.basename(at[1]), *map(int, at.groups()[1:5]), at[6]) for at in lines if at), f"status {ran.returncode}: {ran.stderr[:300].decode('utf-8', 'replace')}"


def is_same(tool, json_place, line_place):
    """Whether places are the same. The column in a line of gcc is in the span that its JSON has."""
    if json_place[:2] != line_place[:2] or tool.columns == "none":
        return json_place[:2] == line_place[:2]
    start, end = json_place[1:3], json_place[3:5]
    return start == line_place[1:3] or tool.columns == "within" and start <= line_place[1:3] <= end


def try_tool(tool, program):
    """Whether both outputs of a tool give the same places; None if it can't be tried."""
    with tempfile.TemporaryDirectory() as room:
        for name, text in tool.files.items():
            with open(os.path.join(room, name), "w", encoding="utf-8", newline="") as file:
                file.write(text)
        printed = output(tool.json, room)
        values = [text for text in printed if text.lstrip()[:1] in (b"{", b"[", b"<")]
        text = values[0] if values else printed[0] + printed[1]
        if not values and not re.search(rb"^[{\[<]", text, re.M):
            print(f"  {tool.json}: {text[:200].decode('utf-8', 'replace')}")
            return None
        said, ended = places(program, text, room, () if values else ("--from", "json"))
        want, _ = places(program, b"".join(output(tool.lines, room)), room, tool.options)
        if not tool.has_notes:
            # (in JSON they are labels)
            said, want = ([it for it in them if it[-1] != "advice"] for them in (said, want))
        left = list(want)
        more = [it for it in said if not any(is_same(tool, it, other) and (left.remove(other) or True) for other in left)]
        if said and not more and not left:
            return True
        print("FAILED", tool.json, *(f"only as JSON: {it}" for it in more), *(f"only as lines: {it}" for it in left), sep="\n  ")
        print(f"  {len(said)} findings as JSON, {len(want)} as lines; {ended}")
        return False


def main():
    if len(sys.argv) < 2:
        sys.exit(__doc__)
    program, named, passed, failed = os.path.abspath(sys.argv[1]), sys.argv[2:], 0, 0
    for tool in TOOLS:
        if named and tool.name not in named:
            continue
        if not shutil.which(tool.name):
            print(f"skipped: {tool.name} isn't installed")
            continue
        is_right = try_tool(tool, program)
        if is_right is None:
            print(f"skipped: {tool.name} prints no such JSON here: {tool.json}")
            continue
        passed += is_right
        failed += not is_right
    print(f"{passed} passed, {failed} failed")
    return int(failed > 0)


if __name__ == "__main__":
    sys.exit(main())
