#!/usr/bin/env python3
"""What is around the program `girzohal`, tried by `try_girzohal.py`: terminals, limits, its pages, and its installation."""
import os
import pty
import re
import resource
import shutil
import subprocess
import tempfile

TOP = os.path.dirname(os.path.dirname(os.path.dirname(os.path.abspath(__file__))))
BASH = os.path.join(TOP, "completions", "girzohal.bash")
VARIABLES = ("FORCE_COLOR", "CLICOLOR_FORCE", "NO_COLOR", "CLICOLOR", "TERM", "COLUMNS")


def read(*path):
    with open(os.path.join(TOP, *path), encoding="utf-8") as file:
        return file.read()


# What there is, as the tables in the sources have it: options, values, tools, and parts of shapes.
OPTIONS = sorted(set(re.findall(r'"--([a-z-]+)"', read("crates", "girzohal_options", "src", "table.rt"))))
VALUES = re.findall(r'"([a-z0-9_]+)" => Some\(\w+::', read("crates", "girzohal_options", "src", "values.rt"))
SHAPES = read("crates", "line_shapes", "src", "tables.rt")
OWN_FORMS = re.search(r"JSON_TOOLS: .*?\];", read("crates", "girzohal_options", "src", "table.rt"), re.S)[0]
TOOLS = sorted({"sarif", *re.findall(r'"([a-z0-9-]+)", Unit::', SHAPES), *re.findall(r'\(\n        "([a-z0-9-]+)",\n', SHAPES),
                *re.findall(r'"([a-z0-9-]+)",\n', OWN_FORMS)})
PARTS = re.findall(r'\(b"([a-z~]+)", Item::', read("crates", "line_shapes", "src", "parse.rt"))


class Around:
    """The tries of this file. `check`, `ends`, `run`, `program` and `room` are those of `Tries`."""

    # ---- terminals

    def on_terminal(self, *words, given, env):
        """What is written to a terminal."""
        ours, theirs = pty.openpty()
        ran = subprocess.Popen([self.program, *words], stdin=subprocess.PIPE, stdout=theirs, stderr=subprocess.PIPE, cwd=self.room,
                               env={"PATH": os.environ.get("PATH", ""), "LANG": "C.UTF-8", **env})
        os.close(theirs)
        ran.stdin.write(given)
        ran.stdin.close()
        shown = b""
        try:
            for part in iter(lambda: os.read(ours, 65536), b""):
                shown += part
        except OSError:
            pass  # (a terminal whose other side is closed ends so)
        os.close(ours)
        ran.stderr.close()
        ran.wait(60)
        return shown

    def try_colors(self):
        """On a terminal there are colors, unless the environment or an option says otherwise."""
        line = b"a.c:2:5: error: no such name [x]\n"
        looks = [({}, True), ({"TERM": "xterm"}, True), ({"NO_COLOR": ""}, True), ({"NO_COLOR": "1"}, False), ({"TERM": "dumb"}, False),
                 ({"FORCE_COLOR": "0"}, True), ({"FORCE_COLOR": "1", "NO_COLOR": "1", "TERM": "dumb"}, True),
                 ({"FORCE_COLOR": "", "NO_COLOR": "1"}, False), ({"FORCE_COLOR": "0", "NO_COLOR": "1"}, False),
                 ({"CLICOLOR": "0"}, False), ({"CLICOLOR": ""}, True), ({"CLICOLOR": "1", "NO_COLOR": "1"}, False),
                 ({"CLICOLOR_FORCE": "1", "CLICOLOR": "0"}, True), ({"CLICOLOR_FORCE": "0", "CLICOLOR": "0"}, False)]
        for env, colors in looks:
            shown = self.on_terminal(given=line, env=env)
            self.check(f"on a terminal with {env}: {'colors' if colors else 'no colors'}", b"no such name" in shown and (b"\x1b[" in shown) == colors)
        for words, colors in (("--ascii", False), ("--color=always", True), ("--color=never", False), ("--color=auto", True)):
            shown = self.on_terminal(words, given=line, env={})
            self.check(f"on a terminal with {words}", (b"\x1b[" in shown) == colors)
        shown = self.on_terminal("--to", "problems", given=line, env={})
        self.check("on a terminal a form that isn't drawn has no colors", b"a.c:2:5" in shown and b"\x1b" not in shown)

    def try_keyboard(self):
        """A note is printed for an input from a terminal, and none for a pipe or a file."""
        ours, theirs = pty.openpty()
        ran = subprocess.Popen([self.program, "--ascii"], stdin=theirs, stdout=subprocess.PIPE, stderr=subprocess.PIPE, cwd=self.room)
        os.close(theirs)
        os.write(ours, b"a.c:2:5: error: no such name\n\x04")
        out, err = ran.communicate(timeout=60)
        os.close(ours)
        self.check("a terminal as input is told", err == b"girzohal: reading from the terminal\n" and b"no such name" in out and ran.returncode == 1)
        for words in ((), ("-",), ("in.txt",)):
            self.check(f"no terminal as input: {' '.join(words)}", self.run(*words).stderr == b"")

    # ---- limits

    def try_limits(self):
        """Of what is read whole 64 MiB are read, and of lines that are drawn as much as isn't known yet."""
        text, refused = (b"x" * ((1 << 20) - 1) + b"\n") * 64, (7, b"", b"girzohal: input too long\n")
        said = self.long(text, "--to", "json", "--only-findings")
        self.check("64 MiB of lines as json", said.returncode == 0 and said.stdout == b"")
        for form in ("json", "sarif"):
            said = self.long(text + b"\n", "--to", form)
            self.check(f"64 MiB of lines and a byte as {form}", (said.returncode, said.stdout, said.stderr) == refused)
        said = self.long(b"x" * (65 << 20))
        self.check("a line of 65 MiB", (said.returncode, said.stdout, said.stderr) == refused)
        said = self.long(b"make\na.c:2:5: error: no such name\nmake\n\n" + b"x" * (65 << 20))
        self.check("a line of 65 MiB behind a finding that is drawn", said.returncode == 7 and b"no such name" in said.stdout and said.stderr == refused[2])
        said = self.long(b"a.c:2:5: error: no such name\n" + (b"  " + b"x" * ((64 << 10) - 3) + b"\n") * (65 << 4))
        self.check("a finding whose lines are 65 MiB", (said.returncode, said.stdout, said.stderr) == refused, said.stderr[:80])

    def long(self, text, *words):
        """A run over a long text."""
        with tempfile.TemporaryFile() as given:
            given.write(text)
            given.seek(0)
            return subprocess.run([self.program, *words], stdin=given, capture_output=True, cwd=self.room, timeout=600)

    def try_memory(self):
        """Without memory nothing of a log or of a list of problems is written, and the status is 6."""
        def held():
            resource.setrlimit(resource.RLIMIT_AS, (48 << 20, 48 << 20))

        text = b"a.c:2:5: error: no such name\n" * 1_000_000
        with tempfile.TemporaryFile() as given:
            given.write(text)
            given.seek(0)
            said = subprocess.run([self.program, "--to", "problems"], stdin=given, capture_output=True, cwd=self.room, timeout=600, preexec_fn=held)
        self.check("want of memory", (said.returncode, said.stdout, said.stderr) == (6, b"", b"girzohal: out of memory\n"), said)

    # ---- pages

    def try_help(self):
        """The help names all that there is, in rows of 80 columns."""
        text = self.run("--help", given=b"").stdout.decode()
        wide = [row for row in text.split("\n") if len(row) > 80]
        self.check(f"the help has no row of more than 80 columns: {wide}", not wide)
        words = set(re.findall(r"[\w~-]+", text))
        for word in [*VARIABLES, *TOOLS, *VALUES, *(f"--{word}" for word in OPTIONS)]:
            self.check(f"the help names {word}", word in words)
        for part in PARTS:
            self.check(f"the help names {{{part}}}", "{" + part + "}" in text)
        for status in range(8):
            self.check(f"the help says what status {status} is", re.search(rf"\b{status}  \w", text[text.find("Exit status"):]))

    def try_manual(self):
        page = read("docs", "girzohal.1")
        for option in OPTIONS:
            self.check(f"the man page has --{option}", re.search(rf"(?m)^\.It Fl (\w , )?-{option}( |$)", page))
            self.check(f"the man page has --{option} in its synopsis", option in page[page.index(".Sh SYNOPSIS"):page.index(".Sh DESCRIPTION")])
        words = set(re.findall(r"[\w~{}-]+", page))
        for word in [*VARIABLES, *TOOLS, *VALUES, *("{" + part + "}" for part in PARTS)]:
            self.check(f"the man page names {word}", word in words)
        for status in range(8):
            self.check(f"the man page says what status {status} is", f"\n.It {status}\n" in page)

    def try_completions(self):
        """The completions have the same options, and the values that the program takes."""
        for name in ("_girzohal", "girzohal.fish", "girzohal.bash"):
            text = read("completions", name)
            for option in OPTIONS:
                self.check(f"{name}: {option}", re.search(rf"(--|-l |,--){option}(?![\w-])", text))
            for value in [*TOOLS, *VALUES]:
                self.check(f"{name}: {value}", re.search(rf"(?<![\w-]){value}(?![\w-])", text))
        for tool in TOOLS:
            self.check(f"--tool {tool} is known", self.run("--tool", tool, given=b"").returncode in (0, 3))
        if not shutil.which("bash"):
            print("skipped: completions in bash: there is no bash")
            return
        self.check("bash reads its completion", subprocess.run(["bash", "-n", BASH], capture_output=True).returncode == 0)
        tried = [("--to = g", ["github", "gitlab"]), ("--to g", ["github", "gitlab"]), ("--color =", ["auto", "always", "never"]), ("--asc", ["--ascii"]),
                 ("--tool = problem", ["problem-lines"]), ("--q", ["--quiet"]), ("--shape = x", []), ("--root = su", ["sub"]), ("in.", ["in.txt"])]
        for words, wanted in tried:
            self.check(f"bash completes {words} by {wanted}", self.completed(words.split()) == wanted)

    def completed(self, words):
        script = '. "$0"; COMP_WORDS=(girzohal "$@"); COMP_CWORD=$#; _girzohal; printf "%s\\n" "${COMPREPLY[@]}"'
        said = subprocess.run(["bash", "-c", script, BASH, *words], capture_output=True, cwd=self.room, timeout=60)
        return said.stdout.decode().split()

    # ---- installation

    def try_install(self):
        """Five files, below a prefix."""
        wanted = {"bin/girzohal": self.program, "share/man/man1/girzohal.1": f"{TOP}/docs/girzohal.1",
                  "share/bash-completion/completions/girzohal": BASH, "share/zsh/site-functions/_girzohal": f"{TOP}/completions/_girzohal",
                  "share/fish/vendor_completions.d/girzohal.fish": f"{TOP}/completions/girzohal.fish"}
        for named in ({}, {"DESTDIR": "set"}):
            with tempfile.TemporaryDirectory() as room:
                env = {**os.environ, "GIRZOHAL": self.program, "DESTDIR": room if named else ""}
                said = subprocess.run(["sh", f"{TOP}/install.sh", "/usr" if named else f"{room}/usr"], capture_output=True, cwd=self.room, env=env, timeout=60)
                self.check(f"install.sh {named}", said.returncode == 0, said)
                there = {os.path.relpath(os.path.join(base, name), f"{room}/usr") for base, _, names in os.walk(room) for name in names}
                self.check(f"install.sh puts five files there: {sorted(there)}", there == set(wanted))
                for name, source in wanted.items():
                    with open(f"{room}/usr/{name}", "rb") as copied, open(source, "rb") as own:
                        self.check(f"install.sh: {name}", copied.read() == own.read())
                self.check("what is installed runs", os.access(f"{room}/usr/bin/girzohal", os.X_OK))
        said = subprocess.run(["sh", f"{TOP}/install.sh"], capture_output=True, cwd=self.room, timeout=60)
        self.check("install.sh without a prefix says its usage", said.returncode == 2 and said.stderr.startswith(b"usage: sh install.sh PREFIX"), said)
