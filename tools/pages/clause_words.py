#!/usr/bin/env python3
"""The words of the clauses of all public calls, with their definitions. usage: clause_words.py FOLDER

It writes FOLDER/CLAUSE_WORDS.md. `tools/reference.sh` calls it. The status is 1 where a word has no definition. The kit's words
are in tools/pages/kit_words.tsv."""
import collections
import functools
import os
import re
import sys

sys.dont_write_bytecode = True  # nothing is left beside the sources
import calls

TOP = calls.TOP
KIT_WORDS = os.path.join(TOP, "tools", "pages", "kit_words.tsv")
GHOST_USE = re.compile(r"^( *)ghost use ([\w.]+)(?:\.\{([^}]*)\}| as (\w+));", re.M)
TOKEN = re.compile(r"(?<![\w.])([^\W\d]\w*)((?:\.\w+)*)")
CLAUSE_NAME = re.compile(r"\b(?:ensures|requires)\*?(?: \w+)? \{")
BINDERS = (r"λ ([\w ]+)\.", r"\(([\w ]+?) : ", r"\blet (\w+)", r"[{;] *(\w+) = ")
KEPT = {"self", "Self", "result", "record", "let", "in", "if", "then", "else"}

Use = collections.namedtuple("Use", "first last path original")
Definition = collections.namedtuple("Definition", "file line said kind")


@functools.cache
def read(path):
    with open(path, encoding="utf-8") as file:
        return file.read()


@functools.cache
def own_crates():
    return frozenset(calls.crates())


# ---- definitions

def said_above(lines, at, mark):
    """The comment right above a line, its first paragraph in one line."""
    found, line = [], at - 1
    while line >= 0 and re.match(r"\s*(#\[|%s)" % re.escape(mark), lines[line]):
        if lines[line].strip().startswith(mark):
            found.insert(0, lines[line].strip()[len(mark):].strip())
        line -= 1
    return " ".join(found[: found.index("")] if "" in found else found)


def equation(lines, at, name):
    """The equation of a word that has a single short one, right below the line of its type."""
    below = [line.strip() for line in lines[at + 1 : at + 3]] + ["", ""]
    single = below[0].startswith(name + " ") and not below[1] and len(below[0]) <= 110
    return f"`{below[0]}`" if single else ""


ANTT_LINE = re.compile(r"( *)(?:abbrev |unfoldable )?(?:(module|mutual) ?|(?:pub )?(?:(record|data) )?([^\s({:]+))")

ANTT_BEGINS = re.compile(r"(?!(?:pub )?use ) *(abbrev|unfoldable|pub|module|[^\s({:]+ :)")


@functools.cache
def definitions_in(file):
    """The words that a file of specs/ defines: of themselves, or as a case or a field of another."""
    lines = read(file).split("\n")
    found, parts, outer = {}, {}, []
    for at, line in enumerate(lines):
        here = ANTT_LINE.match(line)
        if not here or not ANTT_BEGINS.match(line):
            continue
        depth, block, kind, name = len(here.group(1)), *here.groups()[1:]
        outer = [each for each in outer if each[0] < depth]
        said = said_above(lines, at, "--")
        if not said and outer and outer[-1][2] == at - 1:
            said = said_above(lines, at - 1, "--")
        owner = outer[-1] if outer and outer[-1][1] else None
        if name and (owner or " pub " in " " + line):
            of = f"a {'case' if owner[1] == 'data' else 'field'} of `{owner[3]}`" if owner else ""
            words = parts if owner else found
            words.setdefault(name, Definition(file, at + 1, said or equation(lines, at, name), of))
        if block or kind:
            outer.append((depth, kind, at, name))
    return {**parts, **found}


def handed_on(file, name):
    """Where a file of specs/ hands a word on from: a path and the word's name there."""
    for path, names in re.findall(r"^pub use ([\w.]+)\.\{([^}]*)\}", read(file), re.M):
        for each in names.split(","):
            original, _, alias = each.strip().partition(" as ")
            if (alias or original) == name:
                return path, original
    return None


RUST_ITEM = re.compile(r"\s*(?:pub )?(enum|struct|trait|const|type) (?!fn\b)(\w+)")
MODEL = re.compile(r"impl(?:<.*?>)? Model for (\w+)")
RUST_KINDS = {"trait": "a trait", "const": "a constant"}


@functools.cache
def rust_items(crate):
    """A crate's types, traits and constants; and the models of its types, each with its source, line and value."""
    items, models = {}, {}
    for file in sorted(calls.sources(crate), key=lambda file: (file.count("/"), file)):
        lines = read(file).split("\n")
        for at, line in enumerate(lines):
            item, model = RUST_ITEM.match(line), MODEL.match(line)
            if item:
                said = said_above(lines, at, "///")
                kind = RUST_KINDS.get(item.group(1), "a type")
                items.setdefault(item.group(2), Definition(file, at + 1, said, kind))
            value = next((n for n in range(at, len(lines)) if "ghost Value = {" in lines[n]), None) if model else None
            if value is not None:
                shown = re.search(r"ghost Value = \{\s*(.*?)\s*\};", "\n".join(lines[value:]), re.S).group(1)
                models.setdefault(model.group(1), (file, value, " ".join(shown.split())))
    return items, models


def rust_item(crate, name):
    return rust_items(crate)[0].get(name)


def model_of(crate, name):
    return rust_items(crate)[1].get(name)


@functools.cache
def rust_member(crate, owner, name):
    """A case of an enum, or a ghost member of a trait."""
    item = rust_item(crate, owner)
    if item is None:
        return None
    lines = read(item.file).split("\n")
    for at in range(item.line, len(lines)):
        if lines[at].startswith("}"):
            return None
        ghost = re.match(r"    ghost %s: \{ (.*?)(?: \}.*)?$" % re.escape(name), lines[at])
        case = re.match(r"    %s\b[^:]*$" % re.escape(name), lines[at])
        if ghost or case:
            kind = f"a ghost member of the trait `{owner}`: `{ghost.group(1)}`" if ghost else f"a case of `{owner}`"
            return Definition(item.file, at + 1, said_above(lines, at, "///"), kind)
    return None


def declared(crate, parts, name):
    """The item under `specs.declared`: Rust's own items."""
    if parts[-1] == "TheVariants":
        return rust_member(crate, parts[-2], name)
    return rust_item(crate, name) or rust_member(crate, parts[-1], name)


@functools.cache
def define(path, name):
    """The definition for a path and a name, None for one of the kit's."""
    parts = path.split(".")
    if parts[0] != "Rattle" or parts[1] not in own_crates():
        return None
    if "declared" in parts:
        return declared(parts[1], parts[parts.index("declared") + 1:], name)
    file = os.path.join(TOP, "crates", *parts[1:]) + ".antt"
    found = definitions_in(file).get(name) if os.path.isfile(file) else None
    further = handed_on(file, name) if found is None and os.path.isfile(file) else None
    return define(*further) if further else found


# ---- what a source names

def indent(line):
    return len(line) - len(line.lstrip())


def block_round(lines, at):
    """The first and last line of the block around a line."""
    first = last = at
    while first > 0 and (indent(lines[first]) >= indent(lines[at]) or not lines[first].strip()):
        first -= 1
    while last < len(lines) and not lines[last].startswith(" " * indent(lines[first]) + "}"):
        last += 1
    return first, last


@functools.cache
def ghost_uses(file):
    """The words that a source takes from specs/, each with the lines in which it means that."""
    text = read(file)
    lines = text.split("\n")
    found = collections.defaultdict(list)
    for use in GHOST_USE.finditer(text):
        at = text.count("\n", 0, use.start())
        first, last = block_round(lines, at) if use.group(1) else (0, len(lines))
        if use.group(4):
            found[use.group(4) + "."].append(Use(first, last, use.group(2), ""))
        for each in (use.group(3) or "").split(","):
            original, _, alias = each.strip().partition(" as ")
            if original:
                found[alias or original].append(Use(first, last, use.group(2), original))
    return found


def use_at(file, word, line):
    """What a word means in a line: by the innermost block that says so."""
    uses = [use for use in ghost_uses(file).get(word, ()) if use.first <= line <= use.last]
    return max(uses, key=lambda use: use.first, default=None)


@functools.cache
def imports(file):
    """The names that a source takes from other crates of this repository, and from its own."""
    own = os.path.relpath(file, os.path.join(TOP, "crates")).split(os.sep)[0]
    found = {}
    for crate, names in re.findall(r"^\s*(?:pub )?use (\w+)::([^;]*);", read(file), re.M):
        if crate in own_crates() or crate in ("crate", "super"):
            for name in re.findall(r"\b[A-Z]\w*", names):
                found[name] = own if crate in ("crate", "super") else crate
    return found


def home_of(file, name):
    """The crate whose type or trait a name is in a source."""
    own = os.path.relpath(file, os.path.join(TOP, "crates")).split(os.sep)[0]
    for crate in (imports(file).get(name), own):
        if crate and rust_item(crate, name):
            return crate
    if name not in imports(file):
        return None
    return next((crate for crate in calls.crates() if rust_item(crate, name)), None)


def bounds(text):
    """The traits that bind the type parameters of a head: K of `<K: Sink>` is a Sink."""
    found = collections.defaultdict(list)
    for name, traits in re.findall(r"\b([A-Z]\w*): ([^,>={]*)", text):
        found[name] += re.findall(r"\b[A-Z]\w*", traits)
    return found


@functools.cache
def members(crate, trait):
    """The names of a trait's ghost members."""
    item = rust_item(crate, trait)
    if item is None or item.kind != "a trait":
        return ()
    rest = read(item.file).split("\n")[item.line:]
    end = next((at for at, line in enumerate(rest) if line.startswith("}")), len(rest))
    return tuple(re.findall(r"^    ghost (\w+):", "\n".join(rest[:end]), re.M))


# ---- words in a text of clauses

def bound_names(head, text):
    found = set(re.findall(r"\b(\w+):", head))
    for binder in BINDERS:
        for names in re.findall(binder, text):
            found.update(names.split())
    return found


def member_of(file, word, traits):
    """The ghost member that a bare word is: of the trait around it, or of one that the source imports."""
    for trait in traits:
        crate = home_of(file, trait)
        if crate and word in members(crate, trait):
            return rust_member(crate, trait, word)
    return None


class Words:
    """The words of one crate's clauses: for each what it means, and its definition."""

    def __init__(self):
        self.rows = collections.defaultdict(set)
        self.kit = set()
        self.missing = set()
        self.calls = 0

    def take(self, file, line, head, text, traits=()):
        text = CLAUSE_NAME.sub("{", text)
        bound = bound_names(head, text) | KEPT
        generic = bounds(head)
        for word, tail in TOKEN.findall(text):
            use = use_at(file, word, line)
            if use and word not in bound:
                self.take_use(word, use)
            elif tail and use_at(file, word + ".", line):
                path = use_at(file, word + ".", line).path
                self.take_use(word + tail, Use(0, 0, path, tail[1:]))
            elif tail and word in generic:
                self.take_member(file, word, tail.split(".")[1], generic[word])
            elif word not in bound or tail and word[0].isupper():
                self.take_rust(file, word, tail, traits)
        for word in ghost_uses(file):
            signs = [part for part in word.split("◌") if part]
            if not TOKEN.fullmatch(word) and all(part in text for part in signs) and use_at(file, word, line):
                self.take_use(word, use_at(file, word, line))

    def take_use(self, word, use):
        definition = define(use.path, use.original)
        if definition:
            alias = f"`{use.original}`" if use.original != word.split(".")[-1] else ""
            self.add(word, ", ".join(part for part in (alias, definition.kind) if part), definition)
        elif use.path.split(".")[1] in own_crates():
            self.missing.add(f"{word}: {use.path} has no `{use.original}`")
        else:
            self.kit.add((use.path, use.original))

    def take_member(self, file, parameter, member, traits):
        for trait in traits:
            crate = home_of(file, trait)
            found = rust_member(crate, trait, member) if crate else None
            if found:
                self.add(f"{parameter}.{member}", found.kind, found)

    def take_rust(self, file, word, tail, traits):
        crate = home_of(file, word) if word[0].isupper() else None
        if crate and tail:
            found = rust_member(crate, word, tail.split(".")[1])
            if found:
                self.add(word + "." + tail.split(".")[1], found.kind, found)
        elif crate:
            self.take_type(crate, word)
        elif not tail or tail in (".now", ".old", ".new"):
            found = member_of(file, word, traits)
            if found:
                self.add(word, found.kind, found)

    def take_type(self, crate, name):
        """A type, and what contracts see of it where that is something else."""
        item, model = rust_item(crate, name), model_of(crate, name)
        if model is None:
            self.add(name, item.kind, item)
            return
        file, line, value = model
        seen = Words()
        seen.take(file, line, "", value)
        first = min((each for _, each in seen.rows), key=lambda each: (each.file, each.line), default=None)
        here = Definition(file, line + 1, item.said, "")
        self.add(name, f"seen as `{value}`", first or here)

    def add(self, word, stands, definition):
        self.rows[(stands, definition)].add(word)


# ---- words of a crate

def traits_seen(file):
    """The traits whose ghost members a source may name without saying whose they are."""
    here = re.findall(r"^pub trait (\w+)", read(file), re.M)
    return here + [name for name, crate in imports(file).items() if members(crate, name)]


def ghosts_of(file, exported):
    """The ghost members of a source's public types and traits: the line of each, the head above it, its text."""
    lines = read(file).split("\n")
    head, shown = "", False
    for at, line in enumerate(lines):
        if line and not line[0].isspace():
            named = re.match(r"pub (?:struct|enum) (\w+)", line)
            name = named.group(1) if named else (calls.owner(line) or [""])[0]
            head, shown = line, bool(name) and exported(name)
        if shown and re.match(r"    ghost (?!use\b)\w+", line):
            end = at
            while end < len(lines) - 1 and not re.search(r"\}[;,]$", lines[end]):
                end += 1
            yield at, head, re.sub(r"^\s*ghost \w+", "", "\n".join(lines[at : end + 1]))


def words_of(crate):
    words = Words()
    root, names, modules = calls.exported(crate)
    for file in calls.sources(crate):
        text = read(file)
        whole = file == root or os.path.basename(file)[:-3] in modules
        exported = lambda name: whole or name in names
        lines = text.split("\n")
        for item in calls.public_items(text):
            if not exported(item.place or item.name):
                continue
            words.calls += 1
            outer = next((line for line in lines[item.line - 1 :: -1] if line and not line[0].isspace()), "")
            traits = [item.place] * bool(item.place) + traits_seen(file)
            words.take(file, item.line, outer + " " + item.head, " ".join(item.clauses), traits)
            for name in sorted({item.place, *re.findall(r"\b[A-Z]\w*", item.head)} - {None}):
                home = home_of(file, name)
                if home and model_of(home, name):
                    words.take_type(home, name)
        for line, head, body in ghosts_of(file, exported):
            words.take(file, line, head, body, traits_seen(file))
    return words


# ---- the page

HEAD = """# The words of the clauses

[CALLS](CALLS.md) names each public call and its file, which has its clauses. Here is each word of these clauses, under the name
of the crate, with a link to its definition. The page is made from the sources by `sh tools/reference.sh`.

A word is spelled as in a clause of a public call, in a ghost member of a public trait or type, or in a `Model`, which says what
contracts see of a type. *What it is* gives

- of an alias (`ghost use .. as ..`) the name at its definition;
- of `K.received` and its like, and of a bare word such as `parts`, whose ghost member it is, and its type;
- of a type in a call's head what contracts see instead of it.

*Comment* is the comment above the definition; where there is none, the equation, if it is short.

## How a clause is written

This is the language's own; the kit's `CONTRACTS.md` says it in full.

| Sign | What it means |
|---|---|
| `requires { P }`, `requires name { P }` | what a caller has to know before the call |
| `ensures { P }`, `ensures name { P }` | what holds after it. `ensures*` is a fact about what is lent |
| `result` | what the call answers |
| `x.now`; `x.old`, `x.new`; `x.entry` | what a reference points to; of a `&mut`, before the call and after it; an argument as it was passed |
| `v.items`, `p.name`, `p.0` | the list that a `Vec` holds; a field, by its name or its place |
| `record { name = x }` | the value with these fields |
| `λ x. P` | P as a function of x |
| `(x : X) → P` | P holds for each x of a kind |
| `(x : X) × P` | there is an x of a kind, and P holds of it |
| `P → Q`, `P × Q`, `¬ P` | if P then Q; both; not P |
| `⊥`, `Type 0` | the fact that never holds; what a fact is one of |
| `ℤ`, `u32.MAX`, `tt` | the whole numbers with a sign; the largest number of a type; the one value that says nothing |
| `Self.add_gives a b r` and its like | of the kit's traits `Add`, `Sub`, `Neg` ..: the operator gives r of a and b |
| `Self.name`, `Self.parts` | of the kit's trait `Ledger`: which book a ledger is of, and in how many parts |

## The kit's words

They come with Rattle, whose folder is the one that has `bin/rt` in it; the files are below its `rattle/`.
`Rattle.std.specs.Prelude`, from which most clauses take them (`rattle/std/specs/Prelude.antt`), only hands them on.

| Word | As it is written | In words | File of the kit |
|---|---|---|---|
"""


def cell(text):
    return text.replace("|", "\\|")


def link(definition, up):
    place = os.path.relpath(definition.file, os.path.join(TOP, "crates"))
    return f"[{place}:{definition.line}]({up}/crates/{place}#L{definition.line})"


def kit_rows(cited):
    """The kit's words that are cited, in the order of their table; after them those that it lacks."""
    names = {name for _, name in cited}
    for line in read(KIT_WORDS).rstrip("\n").split("\n"):
        word, written, said, file = line.split("\t")
        if word in names:
            yield f"| `{cell(word)}` | `{cell(written)}` | {cell(said)} | `{file}` |"
        names.discard(word)
    for path, name in sorted(cited):
        if name in names:
            yield f"| `{cell(name)}` | | | `{path}` |"


def section(crate, words, up):
    rows = []
    for (stands, definition), spelled in words.rows.items():
        spelling = sorted(spelled, key=lambda word: (word.lower(), word))
        rows.append((spelling[0].lower(), spelling, stands, definition))
    rows.sort(key=lambda row: (row[0], row[1], row[3].file, row[3].line))
    yield from (f"## `{crate}`", "")
    if not rows:
        yield from ("Its clauses have no words but the kit's.", "")
        return
    yield from ("| Word | What it is | Definition | Comment |", "|---|---|---|---|")
    for _, spelling, stands, definition in rows:
        shown = ", ".join(f"`{word}`" for word in spelling)
        yield f"| {shown} | {cell(stands)} | {link(definition, up)} | {cell(definition.said)} |"
    yield ""


def page(up):
    """The page, and the words without a definition. `up` leads from its folder to the top of the checkout."""
    sections, missing, kit = [], set(), set()
    for crate in calls.crates():
        words = words_of(crate)
        missing |= words.missing
        kit |= words.kit
        if words.calls:
            sections += section(crate, words, up)
    return HEAD + "\n".join([*kit_rows(kit), "", *sections]), sorted(missing)


def main():
    if len(sys.argv) != 2:
        sys.exit(__doc__)
    text, missing = page(os.path.relpath(TOP, sys.argv[1]))
    for said in missing:
        print(said)
    with open(os.path.join(sys.argv[1], "CLAUSE_WORDS.md"), "w", encoding="utf-8") as file:
        file.write(text)
    sys.exit(1 if missing else 0)


if __name__ == "__main__":
    main()
