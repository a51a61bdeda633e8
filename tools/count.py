#!/usr/bin/env python3
"""Counts what the crates have: functions of production (outside tests), derived implementations, and crates.

usage: count.py [-v]      (-v: a row for each crate)

Counted apart are the crates that read excerpts, inputs and filters, or write for people, but for the modules of `AMONG`, which count among the
others. Wanted of the others, of which the ports of docs/MAP.md are also counted by themselves: at most 2,200 functions, 800 derives and 50 crates;
and in the way of the data of docs/MAP.md at most 25 functions, all there, of at most 15 crates. The last line is `N passed, M failed`: each of
these is one."""
import glob
import os
import re
import sys

TOP = os.path.dirname(os.path.dirname(os.path.abspath(__file__)))
APART = r"excerpt\w*|json_\w+|xml_\w+|build_dirs|changed_rows|finding_filters|filtered_findings|report_filters|html_pages|finding_summaries"
AMONG = {"finding_summaries": ["counted"]}
MOST = {"functions": 2200, "derives": 800, "crates": 50, "functions on the way": 25, "crates on the way": 15, "functions on the way that aren't there": 0}


def plain(text):
    """A source without comments, texts and characters."""
    pattern = r'//[^\n]*|/\*.*?\*/|b?r(#*)".*?"\1|b?"(?:[^"\\]|\\.)*"|b?\'(?:[^\'\\\n]|\\[^\n]+?)\''
    return re.sub(pattern, lambda it: " " if it[0].startswith("/") else '""', text, flags=re.S)


def without_tests(text):
    """A source without what is behind `#[cfg(test)]`: a module, or one item."""
    while (found := re.search(r"#\[(?:cfg\(test\)|test)\]", text)) is not None:
        end = re.compile(r"[{;]").search(text, found.end())
        at, deep = end.start() if end else len(text), 0
        while at < len(text):
            deep += text[at] == "{"
            deep -= text[at] == "}"
            at += 1
            if deep == 0:
                break
        text = text[:found.start()] + text[at:]
    return text


def figures(crate, module="**/*"):
    functions = derives = 0
    for path in glob.glob(os.path.join(TOP, "crates", crate, "src", f"{module}.rt"), recursive=True):
        with open(path, encoding="utf-8") as file:
            text = without_tests(plain(file.read()))
        functions += len(re.findall(r"\bfn\s+\w+", text))
        derives += sum(len([name for name in names.split(",") if name.strip()]) for names in re.findall(r"#\[derive\(([^)]*)\)\]", text))
    return functions, derives


def uses():
    """The crates that each crate uses, by crates.txt."""
    with open(os.path.join(TOP, "crates.txt"), encoding="utf-8") as file:
        return {crate: used.split() for crate, used in re.findall(r"^(\w+)[ \w]*:(.*)$", file.read(), re.M)}


def ports():
    """The crates that docs/MAP.md names as ports."""
    with open(os.path.join(TOP, "docs", "MAP.md"), encoding="utf-8") as file:
        return {name for name, port in re.findall(r"^\| `(\w+)` \|.*\| ([^|]*) \|$", file.read(), re.M) if port != "(own)"}


def reached(names, uses):
    """The crates that these use, by one step or more."""
    found, left = set(names), list(names)
    while left:
        for own in uses.get(left.pop(), ()):
            if own not in found:
                found.add(own)
                left.append(own)
    return found


def way():
    """The functions of the way of the data, with the crate of each."""
    with open(os.path.join(TOP, "docs", "MAP.md"), encoding="utf-8") as file:
        part = file.read().partition("## The way of the data")[2]
    return [tuple(line.split()[0].split("::")) for line in part.partition("```text\n")[2].partition("```")[0].splitlines() if line.strip()]


def is_there(crate, *names):
    """Whether a crate has a function of a name, in the module or the type that is named before it."""
    for path in glob.glob(os.path.join(TOP, "crates", crate, "src", "**", "*.rt"), recursive=True):
        with open(path, encoding="utf-8") as file:
            text = plain(file.read())
        holders = [name for name in names[:-1] if name[0].isupper()]
        modules = [name for name in names[:-1] if name[0].islower()]
        bodies = re.findall(rf"impl\b[^{{;]*\b{holders[0]}\b[^{{]*{{(.*?)\n}}", text, re.S) if holders else [text]
        is_module = not modules or os.path.splitext(os.path.basename(path))[0] == modules[-1]
        if is_module and any(re.search(rf"\bfn {names[-1]}\b", body) for body in bodies):
            return True
    return False


def sums(table, crates, more=(0, 0)):
    return {"functions": sum(table[it][0] for it in crates) + more[0], "derives": sum(table[it][1] for it in crates) + more[1], "crates": len(crates)}


def among(crates):
    """The functions and derives of these crates that are counted among the others."""
    found = [figures(crate, module) for crate in crates for module in AMONG.get(crate, ())]
    return sum(it[0] for it in found), sum(it[1] for it in found)


def told(name, them):
    return f"{name}: {them['functions']:,} functions, {them['derives']:,} derives, {them['crates']} crates"


def main():
    crates = sorted(os.path.basename(path) for path in glob.glob(os.path.join(TOP, "crates", "*")) if os.path.isdir(os.path.join(path, "src")))
    table, used = {crate: figures(crate) for crate in crates}, uses()
    programs = [crate for crate in ("girzohal", "girzohal_lsp", "girzohal_c", "diagnostics") if crate in crates]
    needed = reached(programs, used)
    tests = [crate for crate in crates if crate.endswith("_tests")]
    apart = [crate for crate in crates if re.fullmatch(APART, crate)]
    others = [crate for crate in crates if crate not in tests and crate not in apart]
    if "-v" in sys.argv[1:]:
        for crate in crates:
            sort = "tests" if crate in tests else "apart" if crate in apart else ""
            print(f"  {crate:22} {table[crate][0]:5} functions {table[crate][1]:5} derives  {sort}")
    print(told("all but tests", sums(table, others + apart)))
    more = among(apart)
    print(told("apart (excerpts, inputs, filters, pages)", sums(table, apart, [-it for it in more])))
    ported, own = sorted(ports() & set(others)), sorted(set(others) - ports())
    print(told("the others", sums(table, others, more)))
    print(told("of these, ports (docs/MAP.md)", sums(table, ported)))
    print(told("of these, our own", sums(table, own, more)))
    print(told("tests", sums(table, tests)))
    unused = sorted(set(others + apart) - needed)
    print(f"used neither by {', '.join(programs)}:", ", ".join(unused) or "none")
    steps = way()
    missing = ["::".join(step) for step in steps if not is_there(*step)]
    got = {**sums(table, others, more), "functions on the way": len(steps), "crates on the way": len({step[0] for step in steps}),
           "functions on the way that aren't there": len(missing)}
    print(f"the way of the data: {got['functions on the way']} functions of {got['crates on the way']} crates", *missing)
    failed = [name for name, most in MOST.items() if got[name] > most]
    for name in failed:
        print(f"FAILED: {got[name]:,} {name}, wanted at most {MOST[name]:,}")
    print(f"{len(MOST) - len(failed)} passed, {len(failed)} failed")
    return int(bool(failed))


if __name__ == "__main__":
    sys.exit(main())
