#!/usr/bin/env python3
"""Runs the jobs that README.md, ci/ and action.yml show, in a new folder with a repository and a compiler's output; and sees to it that
they show the same jobs.

usage: try_ci.py PROGRAM      (crates/girzohal/out/girzohal after `rt run` there)

The last line is `N passed, M failed`; the status is 0 if M is 0."""
import json
import os
import re
import shutil
import subprocess
import sys
import tempfile

TOP = os.path.dirname(os.path.dirname(os.path.dirname(os.path.abspath(__file__))))
PAGES = {"github": ("README.md", "ci/README.md", "action.yml"), "gitlab": ("README.md", "ci/README.md", "ci/gitlab.yml")}
OLD = "int first;\nint second;\n"
NEW = "int first;\nint added;\nint second;\n"
FIRST = "a.c:1:5: warning: unused 'first' [-Wunused]\n"
ADDED = "a.c:2:5: warning: unused 'added' [-Wunused]\n"
SECOND = "a.c:{0}:5: warning: unused 'second' [-Wunused]\n"


class Tries:
    def __init__(self, program, room):
        self.room, self.bin = room, os.path.join(room, "bin")
        self.passed = self.failed = 0
        os.makedirs(self.bin)
        os.symlink(os.path.abspath(program), os.path.join(self.bin, "girzohal"))

    def check(self, is_right, name, *told):
        self.passed += is_right
        self.failed += not is_right
        if not is_right:
            print("FAILED", name, *told, sep="\n  ")

    def run(self, *words, at):
        env = {**os.environ, "PATH": f"{self.bin}:{os.environ['PATH']}", "GIT_CONFIG_GLOBAL": "/dev/null", "GIT_CONFIG_SYSTEM": "/dev/null", "GITHUB_STEP_SUMMARY": os.path.join(at, "summary.md")}
        ran = subprocess.run(words, cwd=at, env=env, capture_output=True, text=True, timeout=60)
        return ran.returncode, ran.stdout, ran.stderr

    def write(self, at, name, text):
        with open(os.path.join(at, name), "w", encoding="utf-8") as file:
            file.write(text)

    def job(self, system):
        """The commands of a system's job, which each page shows."""
        shown = {}
        for page in PAGES[system]:
            with open(os.path.join(TOP, page), encoding="utf-8") as file:
                # (a line goes on after a backslash)
                lines = [line.lstrip("# ").removeprefix("- ").removeprefix("run: ") for line in re.sub(r"\\\n[# ]*", "", file.read()).split("\n")]
            makes = [at for at, line in enumerate(lines) if line.startswith("make 2>&1 | ") and re.search(f"--to {system}|-o {system}=", line)]
            shown[page] = [lines[at - 1:at + 1] if lines[at - 1].startswith("git diff") else [lines[at]] for at in makes]
        first = shown["README.md"][0]
        self.check(all(jobs == [first] for jobs in shown.values()), f"each page shows the same job for {system}", shown)
        return first

    def project(self, printed):
        """A folder with a repository: its branch adds a row to a.c; `make` prints this and succeeds."""
        at = tempfile.mkdtemp(dir=self.room)
        git = ("git", "-c", "user.name=x", "-c", "user.email=x@y")
        files = {"Makefile": "all:\n\t@cat printed.txt\n", "printed.txt": printed, "a.c": OLD}
        for name, text in files.items():
            self.write(at, name, text)
        self.run(*git, "init", "-q", "-b", "main", ".", at=at)
        self.run(*git, "add", "-A", at=at)
        self.run(*git, "commit", "-qm", "old", at=at)
        self.run(*git, "update-ref", "refs/remotes/origin/main", "HEAD", at=at)
        self.write(at, "a.c", NEW)
        self.run(*git, "commit", "-qam", "new", at=at)
        return at

    def try_github(self):
        job = "\n".join(self.job("github"))
        for what, printed, wanted, rows in (("a new warning", FIRST + ADDED, 1, ["2"]), ("an old warning alone", FIRST, 0, []), ("no warning", "cc a.c\n", 0, [])):
            at = self.project(printed)
            self.write(at, "summary.md", "")
            status, out, err = self.run("bash", "-eo", "pipefail", "-c", job, at=at)
            with open(os.path.join(at, "summary.md"), encoding="utf-8") as file:
                summary = file.read()
            is_right = status == wanted and re.findall(r"::warning file=a\.c,line=(\d+)", out) == rows and ("a.c" in summary) == bool(rows) and summary != ""
            self.check(is_right, f"GitHub's job with {what}", status, out, err, summary)

    def try_gitlab(self):
        make = re.search(r"`(make [^`]*> old\.json)`", open(os.path.join(TOP, "ci", "README.md"), encoding="utf-8").read())[1]
        job = "\n".join(["set -eo pipefail", *self.job("gitlab")])
        for what, printed, lines in (("a new warning", FIRST + ADDED, [2]), ("old warnings alone", FIRST, []), ("an old warning that moved", FIRST + SECOND.format(3), [])):
            at = self.project(FIRST + SECOND.format(2))
            self.write(at, "a.c", OLD)
            status, _, err = self.run("bash", "-eo", "pipefail", "-c", make, at=at)
            self.check(status == 0, "a baseline is made", err)
            self.write(at, "a.c", NEW)
            self.write(at, "printed.txt", printed)
            status, out, err = self.run("bash", "-c", job, at=at)
            with open(os.path.join(at, "gl-code-quality-report.json"), encoding="utf-8") as file:
                found = [it["location"]["lines"]["begin"] for it in json.load(file)]
            drawn = [int(row) for row in re.findall(r"╭─\[a\.c:(\d+):5\]", out)]
            self.check(status == 0 and found == drawn == lines, f"GitLab's job with {what}", status, found, out, err)

    def try_install(self):
        """What GitLab's template runs before a job: from a tarball, and from the web, which is a stub of curl here."""
        with open(os.path.join(TOP, "ci", "gitlab.yml"), encoding="utf-8") as file:
            text = file.read()
        block = text.partition("before_script:\n")[2].partition("  artifacts:")[0]
        script = re.sub(r"^ {4}- (\|\n)?", "", block, flags=re.M).replace("\n      ", "\n")
        at = tempfile.mkdtemp(dir=self.room)
        version = re.search(r"GIRZOHAL_VERSION: (\S+)", text)[1]
        name = f"girzohal-{version}-linux-x86_64"
        os.makedirs(os.path.join(at, "web", name, "bin"))
        shutil.copy(os.path.realpath(os.path.join(self.bin, "girzohal")), os.path.join(at, "web", name, "bin", "girzohal"))
        self.run("tar", "-czf", f"{name}.tar.gz", name, at=os.path.join(at, "web"))
        self.run("sh", "-c", f"sha256sum {name}.tar.gz > SHA256SUMS", at=os.path.join(at, "web"))
        with open(os.path.join(self.bin, "curl"), "w", encoding="utf-8") as file:
            file.write('#!/bin/sh\nwhile [ $# -gt 1 ]; do [ "$1" = -o ] && out=$2; shift; done\ncp "web/${1##*/}" "$out"\n')
        os.chmod(os.path.join(self.bin, "curl"), 0o755)
        for what, given in (("the web", "GIRZOHAL_FROM="), ("a tarball", f"GIRZOHAL_FROM=web/{name}.tar.gz")):
            front = f"GIRZOHAL_VERSION={version}; GIRZOHAL_URL=https://example.invalid; {given}"
            status, out, err = self.run("bash", "-c", f"{front}\n{script}\ncommand -v girzohal; girzohal --version", at=at)
            self.check(status == 0 and f"{at}/.girzohal/bin/girzohal\ngirzohal " in out, f"GitLab's job installs from {what}", status, out, err, script)


def main():
    if len(sys.argv) != 2:
        sys.exit(__doc__)
    if not shutil.which("git") or not shutil.which("make") or not shutil.which("bash"):
        print("skipped: the jobs: there is no git, make or bash")
        print("0 passed, 0 failed")
        return 0
    with tempfile.TemporaryDirectory() as room:
        tries = Tries(sys.argv[1], room)
        tries.try_github()
        tries.try_gitlab()
        tries.try_install()
    print(f"{tries.passed} passed, {tries.failed} failed")
    return int(tries.failed > 0)


if __name__ == "__main__":
    sys.exit(main())
