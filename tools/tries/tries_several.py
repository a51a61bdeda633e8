"""Several FILEs of `girzohal`: each is read as it is alone, and the findings of all are written together."""
import json
import os

SETS = (("one.log", "two.log"), ("two.log", "log.sarif", "one.log"), ("doc.json", "log.sarif"), ("one.log", "-", "two.log"), ("log.sarif", "doc.json", "log.sarif"))


def reports_in(text):
    """The reports of a document, with the names and the texts of their files."""
    document = json.loads(text)
    return [({key: value for key, value in it.items() if key != "file"}, document["files"][it["file"]]) for it in document["reports"]]


def results_in(text):
    """The results of a log, without the numbers of its files and rules."""
    run = json.loads(text)["runs"][0]
    for result in run["results"]:
        result.pop("ruleIndex", None)
        for place in result.get("locations", []):
            place["physicalLocation"]["artifactLocation"].pop("index", None)
    return run["results"]


class SeveralTries:
    def several_files(self, line, log, document):
        files = {"one.log": line, "two.log": b"b.c:1:1: warning: foo [y]\nplain line\n", "log.sarif": log, "doc.json": document, "bad.json": b'[{"x": 1}]'}
        for name, text in files.items():
            with open(os.path.join(self.room, name), "wb") as file:
                file.write(text)

    def each_alone(self, form, names, given):
        """What each of the files gives alone, and all together."""
        return [self.run("--to", form, name, given=given) for name in names], self.run("--to", form, *names, given=given)

    def try_several_files(self, line):
        for names in SETS:
            for form in ("problems", "github", "json"):
                alone, said = self.each_alone(form, names, line)
                self.check(f"several files, {form}: {' '.join(names)}", said.stdout == b"".join(it.stdout for it in alone), said)
                self.check(f"several files, what is left, {form}: {' '.join(names)}", said.stderr == b"".join(it.stderr for it in alone), said)
                self.check(f"several files, the status, {form}: {' '.join(names)}", said.returncode == max(it.returncode for it in alone), said)
            for form, read in (("document", reports_in), ("sarif", results_in)):
                alone, said = self.each_alone(form, names, line)
                self.check(f"several files, {form}: {' '.join(names)}", read(said.stdout) == [it for one in alone for it in read(one.stdout)], said)
            alone, said = self.each_alone("gitlab", names, line)
            prints = [it["fingerprint"] for it in json.loads(said.stdout)]
            self.check(f"several files, fingerprints: {' '.join(names)}", len(prints) == len(set(prints)) == sum(len(json.loads(it.stdout)) for it in alone), said)
            for form in ("document", "sarif"):
                with open(os.path.join(self.room, "all.old"), "wb") as file:
                    file.write(self.run("--to", form, *names, given=line).stdout)
                self.ends(f"several files, their own baseline as {form}", 0, "--to", "problems", "--baseline", "all.old", *names, given=line, err=b"girzohal: 0 of ")

    def try_several_refused(self, line):
        """One that isn't read refuses all: its name stands in the line, and nothing is written."""
        for names, status, why in ((("one.log", "bad.json"), 3, b"girzohal: bad.json: $: wanted JSON of a known form"),
                                   (("bad.json", "none.log"), 4, b"girzohal: none.log isn't there\n"),
                                   (("one.log", "sub", "two.log"), 4, b"girzohal: sub is a folder\n"),
                                   (("-", "one.log", "-"), 2, b"girzohal: standard input is read once")):
            for words in ((), ("--to", "github", "-o", "sarif=made.sarif")):
                said = self.ends("several files, one is refused", status, *words, *names, given=line, err=why)
                self.check(f"several files, nothing is written: {' '.join((*words, *names))}",
                           said.stdout == b"" and not os.path.exists(os.path.join(self.room, "made.sarif")), said)
        hostile = "bad\x1b]0;x\x07.json"
        with open(os.path.join(self.room, hostile), "wb") as file:
            file.write(b'[{"x": 1}]')
        said = self.ends("several files, a name that drives", 3, "one.log", hostile, given=line)
        self.check("several files, a name that drives: it is sanitized", b"\x1b" not in said.stderr and b"\x07" not in said.stderr, said)

    def try_several(self, line, log, document):
        self.several_files(line, log, document)
        self.try_several_files(line)
        self.try_several_refused(line)
        said = self.ends("several files, the greatest number", 1, "--max-findings", "1", "one.log", "two.log", given=line, out=b"and 1 more\n1 error, 1 warning\n")
        self.check("several files, drawn: what is left goes to the error output", said.stderr == b"plain line\n", said)
        self.ends("several files, several outputs", 1, "--to", "problems", "-o", "sarif=made.sarif", "one.log", "two.log", given=line, out=b"b.c:1:1")
        with open(os.path.join(self.room, "made.sarif"), "rb") as file:
            made = results_in(file.read())
        self.check("several files, several outputs: all findings", len(made) == 2)
