#!/usr/bin/env python3
"""Prints the example that a page shows in a language: its first fenced block of that language that names girzohal.

usage: shown.py PAGE c|cpp|rust|python|js      (in Rust as a whole program, also if the page shows only a body)"""
import re
import sys

RUST = """fn main() -> Result<(), girzohal::DrawError> {{
{body}
    Ok(())
}}
"""


def main(page, language):
    with open(page, encoding="utf-8") as file:
        blocks = re.findall(rf"^```{language}\n(.*?)^```$", file.read(), re.M | re.S)
    found = next((it for it in blocks if "girzohal" in it), None)
    if found is None:
        sys.exit(f"{page}: no example in {language}")
    if language == "rust" and "fn main" not in found:
        found = RUST.format(body=re.sub("^(?=.)", "    ", found.rstrip(), flags=re.M))
    print(found, end="")


if __name__ == "__main__":
    if len(sys.argv) != 3:
        sys.exit(__doc__.split("\n\n")[1])
    main(*sys.argv[1:])
