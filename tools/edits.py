#!/usr/bin/env python3
"""The must-fail edits of the crates: do they still apply?

usage: edits.py --check

An edit is a wrong program that the prover must refuse. The gate tries those in crates/NAME/must-fail; those in
crates/NAME/edits are tried with tools/try-edits when the crate changes. An edit applies if each of its `old:` texts is
exactly once in its file. The last line counts them; the status is 1 if one doesn't apply."""
import os
import re
import sys

TOP = os.path.dirname(os.path.dirname(os.path.abspath(__file__)))
CRATES = os.path.join(TOP, "crates")
NAME = re.compile(r"[A-Za-z0-9_-][A-Za-z0-9_.-]*\.edit")


def edits_in(crate, folder):
    """The file names of the edits in crates/CRATE/FOLDER, in order."""
    at = os.path.join(CRATES, crate, folder)
    return sorted(os.listdir(at)) if os.path.isdir(at) else []


def fault(text, crate):
    """Why an edit can't be applied, or nothing."""
    path, old, pairs, texts = "", "", 0, {}
    for line in text.split("\n"):
        if line.startswith("file: "):
            path = line[len("file: "):].strip()
        elif line.startswith("old: "):
            old = line[len("old: "):]
        elif line.startswith("new:"):
            if not path or not old:
                return "a 'new:' line stands before any 'file:' or 'old:' line"
            if path not in texts:
                try:
                    with open(os.path.join(CRATES, crate, path), encoding="utf-8") as file:
                        texts[path] = file.read()
                except OSError:
                    return f"there is no file {path}"
            found = texts[path].count(old)
            if found != 1:
                return f"an 'old:' text is in {path} {found} times, and not once"
            texts[path] = texts[path].replace(old, line[len("new:"):].removeprefix(" "))
            old, pairs = "", pairs + 1
    return None if pairs else "it has no 'old:' and 'new:' pair"


def check():
    applied, faults, in_gate = 0, [], 0
    for crate in sorted(os.listdir(CRATES)):
        names = {folder: edits_in(crate, folder) for folder in ("must-fail", "edits")}
        for name in set(names["must-fail"]) & set(names["edits"]):
            faults.append(f"{crate}: {name} stands in both folders")
        for folder, found in names.items():
            for name in found:
                with open(os.path.join(CRATES, crate, folder, name), encoding="utf-8") as file:
                    why = fault(file.read(), crate) if NAME.fullmatch(name) else "its name is no NAME.edit"
                if why:
                    faults.append(f"{crate}/{folder}/{name}: {why}")
                else:
                    applied += 1
                    in_gate += folder == "must-fail"
    for line in faults:
        print(line)
    print(f"{applied} must-fail edits apply, {in_gate} of them in the gate; {len(faults)} don't")
    return 1 if faults else 0


if __name__ == "__main__":
    sys.exit(check() if sys.argv[1:] == ["--check"] else __doc__)
