#!/usr/bin/env python3
"""Makes pictures of pages (docs/page-*.png) with chromium, without a window: what `--to html` writes in light and in dark, what
`--to markdown` writes as cmark-gfm makes it HTML, and what `--to summary` writes (docs/summary.svg).

usage: page_pictures.py PROGRAM [FOLDER]      (crates/girzohal/out/girzohal after `rt run` there; FOLDER is docs/ by default)"""
import os
import re
import shutil
import subprocess
import sys
import tempfile

sys.dont_write_bytecode = True
import picture

TOP = os.path.dirname(os.path.dirname(os.path.dirname(os.path.abspath(__file__))))
SOURCES = os.path.join(TOP, "examples", "outputs", "src")
OUTPUTS = [f"../{name}.txt" for name in ("rustc", "clang", "shellcheck", "flake8")]
WIDTH = 900
# Nearly as a summary of a job is shown on the web.
MARKDOWN = """<!DOCTYPE html><html><head><meta charset="utf-8"><style>
body { font: 14px/1.5 "Liberation Sans", Helvetica, Arial, sans-serif; color: #1f2328; margin: 24px 32px }
table { border-collapse: collapse; margin: 0 0 16px } th, td { border: 1px solid #d1d9e0; padding: 6px 13px } tr:nth-child(2n) { background: #f6f8fa }
h1, h2 { border-bottom: 1px solid #d1d9e0; padding-bottom: .3em } code { background: #eff1f3; padding: .2em .4em; border-radius: 6px; font: 12px "DejaVu Sans Mono", monospace }
</style></head><body>
"""


def run(program, *words):
    return subprocess.run([program, "--fail-on", "never", *words], capture_output=True, cwd=SOURCES, check=True).stdout.decode()


def browser(room, scheme, *words):
    """Chromium over a page, in a color scheme of light or dark."""
    scheme = ("dark", "light").index(scheme)
    ran = subprocess.run(["chromium", "--headless", "--no-sandbox", "--disable-gpu", "--hide-scrollbars", f"--user-data-dir={room}/profile",
                          f"--blink-settings=preferredColorScheme={scheme}", *words], capture_output=True, timeout=120, check=True)
    return ran.stdout.decode("utf-8", "replace")


def shoot(room, page, scheme, path):
    """A picture of a whole page: a script in a copy of it says how tall it is."""
    asking = page + "<script>document.documentElement.dataset.tall = document.documentElement.scrollHeight</script>"
    for name, text in (("page.html", page), ("asking.html", asking)):
        with open(os.path.join(room, name), "w", encoding="utf-8") as file:
            file.write(text)
    tall = re.search(r'data-tall="(\d+)"', browser(room, scheme, f"--window-size={WIDTH},100", "--dump-dom", f"file://{room}/asking.html"))[1]
    browser(room, scheme, f"--window-size={WIDTH},{tall}", f"--screenshot={path}", f"file://{room}/page.html")


def main():
    if len(sys.argv) not in (2, 3):
        sys.exit(__doc__)
    for needed in ("chromium", "cmark-gfm"):
        if not shutil.which(needed):
            sys.exit(f"page_pictures.py: there is no {needed}")
    program, folder = os.path.abspath(sys.argv[1]), os.path.abspath((sys.argv[2:] or [os.path.join(TOP, "docs")])[0])
    with tempfile.TemporaryDirectory() as room:
        page = run(program, "--to", "html", "--tool", "rustc", "../rustc.txt")
        for scheme in ("light", "dark"):
            shoot(room, page, scheme, os.path.join(folder, f"page-{scheme}.png"))
        made = subprocess.run(["cmark-gfm", "--unsafe", "-e", "table", "-e", "strikethrough", "-e", "autolink"], input=run(program, "--to", "markdown", *OUTPUTS).encode(), capture_output=True, check=True)
        shoot(room, MARKDOWN + made.stdout.decode(), "light", os.path.join(folder, "page-markdown.png"))
    with open(os.path.join(folder, "summary.svg"), "w", encoding="utf-8") as file:
        file.write(picture.single("$ girzohal --to summary " + " ".join(OUTPUTS) + "\n" + run(program, "--to", "summary", *OUTPUTS)))


if __name__ == "__main__":
    main()
