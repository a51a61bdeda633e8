#!/usr/bin/env python3
"""Checks what the documents say of the repository's files, and needs Python alone. usage: check_docs.py

- Each link of a .md file leads to a file that is there, and to a heading of it if it names one.
- docs/MAP.md has a row for each crate of crates.txt, and no crate uses one in a lower row.
- Each row of docs/PROMISES.md names a call, clauses of it, and the file that has it.
- Each function under "A caller" or "How it is called" on a page of a crate is in that crate's sources, except for layout,
  and so is proved; statements alone are in the source of some crate. (Examples under other headings aren't checked.) Each function of README.md is in the sources of
  some crate.
- README.md's status line has the version that the file VERSION has.
It prints what isn't so, and a last line; the status is 1 if something isn't."""
import functools
import glob
import os
import re
import sys

TOP = os.path.dirname(os.path.dirname(os.path.dirname(os.path.abspath(__file__))))
LINK = re.compile(r"\[[^\]]*\]\(([^)\s]+)\)")
FUNCTION = re.compile(r"^\s*(?:pub(?:\(crate\))? )?(?:const )?(?:final )?(?:extern \"C\" )?fn (\w+)", re.M)


def read(path):
    with open(path, encoding="utf-8") as file:
        return file.read()


def pages():
    for base, folders, names in os.walk(TOP):
        folders[:] = [name for name in folders if name not in (".git", "out", "target", "node_modules", "reference")]
        yield from (os.path.join(base, name) for name in names if name.endswith(".md"))


def prose(text):
    """The text without its blocks of code, so that nothing in them is taken for a link or a heading."""
    return re.sub(r"^```.*?^```", "", text, flags=re.S | re.M)


def anchor(heading):
    plain = re.sub(r"[^\w\- ]", "", heading.strip().lower().replace("`", ""))
    return plain.replace(" ", "-")


def anchors(path):
    return {anchor(found) for found in re.findall(r"^#+ (.*)$", prose(read(path)), re.M)}


def broken_links(page):
    for target in LINK.findall(prose(read(page))):
        if re.match(r"[a-z]+:", target):
            continue
        path, _, heading = target.partition("#")
        file = os.path.normpath(os.path.join(os.path.dirname(page), path)) if path else page
        if not os.path.exists(file):
            yield f"{target}: no such file"
        elif heading and file.endswith(".md") and heading not in anchors(file):
            yield f"{target}: no such heading"


def plain(text):
    return re.sub(r"\s+|,(?=\s*[)\]}>])", "", text)


def functions(text):
    """The functions of a text by name: from `fn` to the brace that closes the body, without layout.

    (That brace is alone on its line and indented like the function, so that no clause's brace is taken for it.)"""
    found = {}
    for start in FUNCTION.finditer(text):
        depth, at = 0, start.start()
        indent = re.match(r"\s*", start.group(0)).group(0).rpartition("\n")[2]
        while at < len(text):
            if text[at] == "{":
                depth += 1
            elif text[at] == "}":
                depth -= 1
                line = text[text.rfind("\n", 0, at) + 1 : at]
                if depth == 0 and line == indent:
                    break
            at += 1
        found.setdefault(start.group(1), set()).add(plain(text[start.start() : at + 1]).removeprefix("pub"))
    return found


def strangers(text, crates):
    """The functions that a text shows in Rust and that are in no source of these crates, except those with an ellipsis."""
    known = {}
    paths = [path for top in crates for path in glob.glob(os.path.join(top, "src", "**", "*.rt"), recursive=True)]
    for path in paths:
        for name, bodies in functions(read(path)).items():
            known.setdefault(name, set()).update(bodies)
    for block in re.findall(r"^```rust\n(.*?)^```", text, re.S | re.M):
        for name, bodies in functions(block).items():
            if not re.search(r"\(\.\.\)|\{\.\.\}", "".join(bodies)) and not bodies & known.get(name, set()):
                yield name


@functools.cache
def sources():
    paths = glob.glob(os.path.join(TOP, "crates", "*", "src", "**", "*.rt"), recursive=True)
    return [plain(read(path)) for path in paths]


def strange_statements(text):
    """The first lines of the blocks of Rust without a function that are in no source."""
    for block in re.findall(r"^```rust\n(.*?)^```", text, re.S | re.M):
        code = re.sub(r"^\s*//.*\n", "", block, flags=re.M)
        if not functions(block) and not any(plain(code) in source for source in sources()):
            yield code.strip().split("\n")[0]


def wrong_examples(page):
    crate = os.path.dirname(page)
    # (a crate's tests are in a crate of tests above it)
    crates = (crate, os.path.join(os.path.dirname(crate), "*_tests"))
    callers = re.findall(r"^## (?:A caller|How it is called)$(.*?)(?=^## |\Z)", read(page), re.S | re.M)
    for name in strangers("".join(callers), crates):
        yield f"the example `{name}` stands in no source of the crate as it is shown"
    for line in strange_statements("".join(callers)):
        yield f"the example that begins with `{line}` is in no source as it is shown"


def wrong_front():
    """What README.md shows and says by hand."""
    page = read(os.path.join(TOP, "README.md"))
    for name in strangers(page, (os.path.join(TOP, "crates", "*"),)):
        yield f"the example `{name}` stands in no source as it is shown"
    version = read(os.path.join(TOP, "VERSION")).strip()
    if f"\nVersion {version} · " not in page:
        yield f"the status line has another version than the file VERSION, {version}"


def clauses_of(text, call):
    """The names of the clauses of the functions with that name in a file; '' for one without."""
    found, inside = None, False
    for line in text.split("\n"):
        head = FUNCTION.match(line)
        if head:
            inside = head.group(1) == call
            found = set() if inside and found is None else found
        clause = re.match(r"\s*ensures\*? (?:(\w+) )?\{", line)
        if inside and clause:
            found.add(clause.group(1) or "")
    return found


def wrong_promises():
    path = os.path.join(TOP, "docs", "PROMISES.md")
    for line in read(path).split("\n"):
        cells = [cell.strip() for cell in line.strip("|").split("|")]
        if not line.startswith("| ") or len(cells) != 3 or cells[0] == "Promise":
            continue
        crate, _, name = cells[2].strip("`").partition("/")
        file = os.path.join(TOP, "crates", crate, "src", name)
        if not os.path.isfile(file):
            yield f"{cells[2]}: no such file"
            continue
        text = read(file)
        # (a call may be written with its type, `Type::call`; its clauses are after a colon and a blank)
        calls, _, clauses = cells[1].partition(": ")
        for call in re.findall(r"`(?:\w+::)*(\w+)`", calls):
            stated = clauses_of(text, call)
            if stated is None:
                yield f"{cells[2]} has no call `{call}`"
                continue
            for clause in re.findall(r"`(\w+)`", clauses):
                if clause not in stated:
                    yield f"{cells[2]}: `{call}` has no clause `{clause}`"


def wrong_layers():
    rows = re.findall(r"^\| `(\w+)` \|[^|]*\|([^|]*)\|[^|]*\|$", read(os.path.join(TOP, "docs", "MAP.md")), re.M)
    place = {crate: at for at, (crate, _) in enumerate(rows)}
    below = {}
    for crate, names in re.findall(r"^(\w+)[^:#\n]*:(.*)$", read(os.path.join(TOP, "crates.txt")), re.M):
        below[crate] = names.split()
    yield from (f"`{crate}` has no row" for crate in below if crate not in place)
    for crate, named in rows:
        for other in set(re.findall(r"`(\w+)`", named)) & set(below) - set(below.get(crate, ())):
            yield f"`{crate}` doesn't stand on `{other}`, by crates.txt"
        for other in below.get(crate, ()):
            if place.get(other, -1) > place[crate]:
                yield f"`{crate}` stands on `{other}`, which has a row below it"


def wrong_options():
    """Options that the help, the man page or a completion doesn't list."""
    options = sorted(set(re.findall(r'"(--[a-z-]+)"', read(os.path.join(TOP, "crates", "girzohal_options", "src", "table.rt")))))
    for page in ("crates/girzohal/src/help.rt", "docs/girzohal.1", *(f"completions/{name}" for name in os.listdir(os.path.join(TOP, "completions")))):
        text = read(os.path.join(TOP, page))
        words = set(re.findall(r"[\w-]+", re.sub(r"-l (?=\w)", "--", text.replace("Fl -", "Fl --"))))
        words |= {f"--{word}" for line in re.findall(r"^\.(?:It|Op) Fl.*", text, re.M) for word in re.findall(r"(?<=[ ,]-)[a-z][a-z-]*", line)}
        yield from (f"{page} doesn't list `{name}`" for name in options if name not in words)


def main():
    wrong = []
    for page in sorted(pages()):
        name = os.path.relpath(page, TOP)
        wrong += [f"{name}: {said}" for said in broken_links(page)]
        if re.fullmatch(r"crates/\w+/README\.md", name):
            wrong += [f"{name}: {said}" for said in wrong_examples(page)]
    wrong += [f"README.md: {said}" for said in wrong_front()]
    wrong += [f"docs/PROMISES.md: {said}" for said in wrong_promises()]
    wrong += [f"docs/MAP.md: {said}" for said in wrong_layers()]
    wrong += wrong_options()
    for said in wrong:
        print(said)
    print("the documents say what is there" if not wrong else f"{len(wrong)} things that the documents say aren't so")
    return 1 if wrong else 0


if __name__ == "__main__":
    sys.exit(main())
