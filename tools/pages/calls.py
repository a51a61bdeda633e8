#!/usr/bin/env python3
"""The public calls of all crates, read from the sources. usage: calls.py FOLDER

It writes FOLDER/CALLS.md. `tools/reference.sh` calls it."""
import collections
import os
import re
import sys

TOP = os.path.dirname(os.path.dirname(os.path.dirname(os.path.abspath(__file__))))
TAKES = re.compile(
    r"AllocError|AllocFailed|AddError|ReportError|RenderError|EditError|ProblemError|LogError|ReportFault"
    r"|ShapeError|ShowError|SendError|Refusal\b|Fetched\b|Taken\b|OutOfMemory|Reading\b|Status\b|io::Result"
)
BEGINS = re.compile(r'( *)(pub )?(?:const |final |unsafe |extern "C" )*fn (\w+)')
NEVER_FAILS = re.compile(r"ensures(?: \w+)? \{ result ≡ Ok ")
Item = collections.namedtuple("Item", "place name head clauses line")


def crates():
    for line in open(os.path.join(TOP, "crates.txt"), encoding="utf-8"):
        found = re.match(r"([a-z0-9_]+)[^:#]*:", line)
        # (a crate of tests has callers alone)
        if found and not found.group(1).endswith("_tests"):
            yield found.group(1)


def sources(crate):
    root = os.path.join(TOP, "crates", crate, "src")
    for base, _, names in sorted(os.walk(root)):
        for name in sorted(names):
            if name.endswith(".rt") and "test" not in name:
                yield os.path.join(base, name)


def exported(crate):
    """The names that other crates can write, and the modules all of whose public names they can."""
    root = os.path.join(TOP, "crates", crate, "src")
    path = next(p for p in (os.path.join(root, "lib.rt"), os.path.join(root, "main.rt")) if os.path.isfile(p))
    text = open(path, encoding="utf-8").read()
    names = set()
    for use in re.findall(r"^pub use ([^;]*);", text, re.M):
        names.update(re.findall(r"\w+", use.split("::")[-1] if "{" not in use else use[use.index("{"):]))
    return path, names, set(re.findall(r"^pub mod (\w+);", text, re.M))


def owner(line):
    found = re.match(r"(?:unsafe )?impl(?:<[^{]*?>)? (?:([\w:]+)(?:<.*?>)? for )?&?(?:'\w+ )?([\w:]+)", line)
    if found:
        return (found.group(2).split("::")[-1], found.group(1))
    found = re.match(r"pub(?:\(crate\))? trait (\w+)", line)
    return (found.group(1), None) if found else None


def public_items(text):
    """Each public function: the type or trait it is in, its name, its head, its clauses and its line."""
    lines = text.split("\n")
    place, traits, at = None, False, 0
    while at < len(lines):
        line = lines[at]
        if line and not line[0].isspace():
            of = owner(line)
            if of:
                place, traits = of[0], of[1] is not None
                in_trait = line.startswith("pub trait")
            elif line.startswith("}"):
                place, traits = None, False
        begin = BEGINS.match(line)
        if begin and (begin.group(2) or (place and begin.group(1) and not traits and in_trait)):
            head, clauses, end = signature(lines, at)
            yield Item(place, begin.group(3), " ".join(head), clauses, at + 1)
            at = end
        at += 1


def signature(lines, at):
    """The head of the function that begins at a line, its clauses, and the line at which they end."""
    head, clauses, end = [], [], at
    while end < len(lines):
        part = lines[end].strip()
        if not part.startswith("//"):
            clauses.append(part) if clauses or re.match(r"(requires|ensures)\b", part) else head.append(part)
        opens = part in ("{", "{}") or part.endswith("{") and not clauses
        if opens or part == ";" or part.endswith("};") or part.endswith(";") and not clauses:
            break
        end += 1
    return head, [c for c in clauses if c not in ("{", "{}")], end


def conditions(clauses):
    joined = " ".join(clauses)
    return [c.strip() for c in re.findall(r"requires(?: \w+)? \{ (.*?) \}(?= requires| ensures|;|$)", joined)]


def clause_names(clauses):
    return re.findall(r"ensures\*? (\w+) \{", " ".join(clauses))


def result_of(head):
    found = re.search(r"-> (.*?)(?: where| \{|;|$)", head)
    return found.group(1).strip() if found else ""


def refusals(result):
    if result.startswith("Result<Option"):
        return "error, `None`"
    if "Result" in result:
        return "error"
    return "`None`" if result.startswith("Option") else ""


def escape(text):
    return text.replace("|", "\\|")


HEAD = """# Every public call

Made from the sources by `sh tools/reference.sh`. The clauses of a call are in its *File*, after its head. Their words are in
[CLAUSE_WORDS](CLAUSE_WORDS.md) under the name of the crate, each with a link to its definition.

A condition is shown as the contract has it. Each can be tested, or follows from how the value was made. *Other answers* are errors
and `None`; the clauses say when each is given. A call that allocates can fail because it is out of memory, at any time.
"""
COLUMNS = ("Call", "Conditions", "Other answers", "Named clauses", "Allocates", "File")


def row(item, path, root, up):
    call = f"{item.place}::{item.name}" if item.place else item.name
    asked = "; ".join(f"`{escape(c)}`" for c in conditions(item.clauses))
    result = result_of(item.head)
    stated = ", ".join(f"`{n}`" for n in clause_names(item.clauses))
    exported_alloc = "extern" in item.head and "alloc: Global" in item.head
    never = NEVER_FAILS.search(" ".join(item.clauses))
    memory = "yes" if (TAKES.search(result) or exported_alloc) and not never else ""
    other = "" if never else refusals(result)
    file = f"[{os.path.relpath(path, root)}]({up}/{os.path.relpath(path, TOP)})"
    return f"| `{call}` | {asked} | {other} | {stated} | {memory} | {file} |"


def table(up):
    """The page; `up` leads from its folder to the top of the checkout."""
    out = [HEAD]
    for crate in crates():
        rows = []
        root, names, modules = exported(crate)
        for path in sources(crate):
            text = open(path, encoding="utf-8").read()
            whole = path == root or os.path.basename(path)[:-3] in modules
            for item in public_items(text):
                if whole or (item.place or item.name) in names:
                    rows.append(row(item, path, os.path.dirname(root), up))
        if rows:
            out += [f"## `{crate}`", "", f"[The words of its clauses](CLAUSE_WORDS.md#{crate})", ""]
            out += ["| " + " | ".join(COLUMNS) + " |", "|---" * len(COLUMNS) + "|", *rows, ""]
    return "\n".join(out)


def main():
    if len(sys.argv) != 2:
        sys.exit(__doc__)
    with open(os.path.join(sys.argv[1], "CALLS.md"), "w", encoding="utf-8") as file:
        file.write(table(os.path.relpath(TOP, sys.argv[1])))


if __name__ == "__main__":
    main()
