#!/usr/bin/env python3
"""What reading the lines of a build costs, in instructions. It needs Python and valgrind.

usage: cost_lines.py PROGRAM [MIB]       (crates/girzohal/out/girzohal after `rt run` there; 4 MiB by default)
       cost_lines.py --log MIB           (only writes such a build's output, the same bytes each time)
       cost_lines.py --sources PROGRAM   (only what findings in sources cost, below)
       cost_lines.py --excerpts PROGRAM  (only what excerpts cost, below)

PROGRAM is run under callgrind on the output of a build without a finding, and on some with findings in 400 files, twice as many
each time: the whole process, with reading the input and writing what is found as lines of problems. The first is also drawn, all of
its lines being kept, without colors and with.

Then findings in sources that are there are drawn, and written as annotations: 1,000 in one file of 1.4 MB, and 10,000 in 1,000 files.
Each is counted as findings alone, with an ordinary line between each two, and with such lines that come one at a time.

At last the 10,000 are drawn as three compilers print them, with the excerpts below them and without: with them they may take twice as
much."""
import os
import random
import re
import socket
import subprocess
import sys
import tempfile

NOUNS = "core util net io parser lexer token http json store cache engine render shader audio socket thread pool alloc buffer".split()


class Build:
    """The lines of a build at random, the same for a seed."""

    def __init__(self):
        self.random = random.Random(4)

    def noun(self):
        return self.random.choice(NOUNS)

    def path(self, ending=""):
        folders = [self.random.choice(["src", "lib", "crates", "modules"])] + [self.noun() for _ in range(self.random.randint(1, 3))]
        return "/".join(folders) + "_" + self.noun() + ending

    def line(self, number):
        low, high = self.random.randint(0, 9), self.random.randint(0, 99)
        return [
            lambda: f"[{number % 101:3d}%] Building CXX object {self.path('.cpp.o')}",
            lambda: f"g++ -O2 -g -Wall -Wextra -std=c++20 -I include -I third_party/include -DNDEBUG -c {self.path('.cpp')} -o build/{self.path('.o')}",
            lambda: f"   Compiling {self.noun()}-{self.noun()} v{low}.{high}.{low}",
            lambda: f"make[{low}]: Entering directory '/srv/build/project/{self.path()}'",
            lambda: f"make[{low}]: Leaving directory '/srv/build/project/{self.path()}'",
            lambda: f"-- Looking for {self.noun()}_{self.noun()}.h - found",
            lambda: f"  CC      {self.path('.o')}",
            lambda: f"2026-11-27 10:30:{number % 60:02d} INFO  {self.noun()}: {self.noun()} {self.noun()} done in {high} ms",
            lambda: f"ok {number} - {self.noun()} {self.noun()} {self.noun()}",
            lambda: f"/usr/bin/ld -shared -o build/lib{self.noun()}.so {self.path('.o')} {self.path('.o')} {self.path('.o')} -lpthread -lm",
            lambda: f"Downloading https://registry.example.org/{self.noun()}/{self.noun()}-{low}.tgz (12.5 kB)",
            lambda: f"    Finished `dev` profile [unoptimized + debuginfo] target(s) in {high}.{low}s",
        ][number % 12]()

    def clean(self, size):
        lines, held = [], 0
        while held < size:
            lines.append(self.line(len(lines)) + "\n")
            held += len(lines[-1])
        return "".join(lines)

    def findings(self, count):
        lines = []
        for number in range(count):
            level, row = self.random.choice(["error", "warning"]), self.random.randint(1, 5000)
            lines += [f"src/{self.noun()}_{self.noun()}.c:{row}:{self.random.randint(1, 80)}: {level}: unused variable 'x' [-Wunused-variable]",
                      f" {row:4d} |     int x = 1;", "      |         ^", self.line(number)]
        return "\n".join(lines) + "\n"


    def sourced(self, count, paths, rows, between):
        """Findings in these files, which have so many rows; perhaps with an ordinary line behind each."""
        lines = []
        for number in range(count):
            lines.append(f"{paths[number % len(paths)]}:{self.random.randint(1, rows)}:5: warning: unused variable 'x' [-Wunused-variable]\n")
            if between:
                lines.append(self.line(number) + "\n")
        return lines


FOUND = ("--to", "problems", "--only-findings")


def counted(program, text, room, written=FOUND):
    path = os.path.join(room, "log")
    with open(path, "w", encoding="utf-8") as it:
        it.write(text)
    words = [program, "--from", "lines", *written, "--fail-on", "never", "--root", room, path]
    run = subprocess.run(["valgrind", "--tool=callgrind", "--callgrind-out-file=/dev/null", *words], capture_output=True, check=True)
    return int(re.search(rb"Collected : ([0-9]+)", run.stderr)[1])


def counted_as_it_comes(program, pieces, room, written):
    """The same of an input that comes in these pieces: each of them is what one read gives."""
    words = [program, "--from", "lines", *written, "--fail-on", "never", "--root", room]
    writer, reader = socket.socketpair(socket.AF_UNIX, socket.SOCK_SEQPACKET)
    with open(os.path.join(room, "count"), "w+b") as said:
        run = subprocess.Popen(["valgrind", "--tool=callgrind", "--callgrind-out-file=/dev/null", *words], stdin=reader, stdout=subprocess.DEVNULL, stderr=said)
        reader.close()
        for piece in pieces:
            writer.sendall(piece.encode())
        writer.close()
        if run.wait() != 0:
            raise subprocess.CalledProcessError(run.returncode, words)
        said.seek(0)
        return int(re.search(rb"Collected : ([0-9]+)", said.read())[1])


def chunks(text, size=60_000):
    return [text[at:at + size] for at in range(0, len(text), size)]


def print_sources(program):
    for count, files, rows in ((1000, 1, 35_000), (10_000, 1000, 50)):
        with tempfile.TemporaryDirectory() as room:
            paths = [f"src_{number}.c" for number in range(files)]
            for path in paths:
                with open(os.path.join(room, path), "w", encoding="utf-8") as it:
                    it.write("    int x = compute_it(1, 2, 3, 4, 5);\n" * rows)
            for name, written in (("drawn", ("--color", "never")), ("--to github", ("--to", "github"))):
                bare = counted_as_it_comes(program, chunks("".join(Build().sourced(count, paths, rows, False))), room, written)
                lines = Build().sourced(count, paths, rows, True)
                between = counted_as_it_comes(program, chunks("".join(lines)), room, written)
                slow = counted_as_it_comes(program, lines, room, written)
                print(f"{count:,} findings in {files:,} files, {name}: {bare / 1e6:,.1f} million instructions; with lines between {between / 1e6:,.1f}"
                      f" ({between / bare:.2f}); one line at a time {slow / 1e6:,.1f} ({slow / between:.2f})")


SOURCE = "    int x = compute_it(1, 2, 3, 4, 5);\n"
# What three compilers print of a finding in a row: its line, and what they draw below it.
COMPILERS = {
    "gcc": ("{0}:{1}:13: warning: unused value of 'compute_it' [-Wunused-value]\n",
            " {1:4d} | {2}      |             ^~~~~~~~~~         ~\n      |             |                  |\n      |             int                char *\n"),
    "clang": ("{0}:{1}:13: warning: unused value of 'compute_it' [-Wunused-value]\n", "{2}            ^~~~~~~~~~         ~\n            compute_all\n"),
    "rustc": ("warning: unused value of `compute_it`\n  --> {0}:{1}:13\n",
              "   |\n{1} | {2}   |             ^^^^^^^^^^         - this is a text\n   |             |\n   |             the value\n   |\n   = note: on by default\n\n"),
}


def print_excerpts(program, count=10_000, files=1000, rows=50):
    with tempfile.TemporaryDirectory() as room:
        for number in range(files):
            with open(os.path.join(room, f"src_{number}.c"), "w", encoding="utf-8") as it:
                it.write(SOURCE * rows)
        for tool, (line, excerpt) in COMPILERS.items():
            build, bare, drawn = Build(), [], []
            for number in range(count):
                it = (f"src_{number % files}.c", build.random.randint(10, rows), SOURCE)
                bare.append(line.format(*it) + ("\n" if tool == "rustc" else ""))
                drawn.append((line + excerpt).format(*it))
            taken = [counted_as_it_comes(program, chunks("".join(lines)), room, ("--color", "never", "--tool", tool)) for lines in (bare, drawn)]
            print(f"{count:,} findings of {tool}, drawn: {taken[0] / 1e6:,.1f} million instructions; with excerpts {taken[1] / 1e6:,.1f} ({taken[1] / taken[0]:.2f})"
                  + ("" if taken[1] <= 2 * taken[0] else ", which is too much"))


def main():
    if len(sys.argv) < 2:
        sys.exit(__doc__)
    if sys.argv[1] in ("--sources", "--excerpts"):
        (print_sources if sys.argv[1] == "--sources" else print_excerpts)(sys.argv[2])
        return
    if sys.argv[1] == "--log":
        sys.stdout.write(Build().clean(int(sys.argv[2]) << 20))
        return
    mib = int((sys.argv[2:3] or ["4"])[0])
    with tempfile.TemporaryDirectory() as room:
        text = Build().clean(mib << 20)
        count = counted(sys.argv[1], text, room)
        print(f"no finding: {len(text):,} bytes, {count / 1e6:,.1f} million instructions, {count / len(text):.1f} a byte")
        for colors in ("never", "always"):
            count = counted(sys.argv[1], text, room, ("--color", colors))
            print(f"drawn, --color {colors}: {count / 1e6:,.1f} million instructions, {count / len(text):.1f} a byte")
        for findings in (25_000, 50_000, 100_000):
            text = Build().findings(findings)
            count = counted(sys.argv[1], text, room)
            print(f"{findings:,} findings: {len(text):,} bytes, {count / 1e6:,.1f} million instructions, {count / findings:,.0f} a finding")
    print_sources(sys.argv[1])
    print_excerpts(sys.argv[1])


if __name__ == "__main__":
    main()
