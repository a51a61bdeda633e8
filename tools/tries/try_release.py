#!/usr/bin/env python3
"""Tries a release as a user would: installs it, and runs what CI systems and editors run, on this machine and without a network.

usage: try_release.py FOLDER      (a folder that tools/release.sh made)

The last line is `N passed, M failed`; what isn't there to try with is named and skipped."""
import contextlib
import functools
import glob
import http.server
import json
import os
import re
import shutil
import subprocess
import sys
import tempfile
import threading
import time

sys.dont_write_bytecode = True
TOP = os.path.dirname(os.path.dirname(os.path.dirname(os.path.abspath(__file__))))
SOURCES = f"{TOP}/examples/outputs/src"
LINES = f"{TOP}/examples/outputs/clang.txt"
passed, failed, skipped = 0, 0, []


def check(name, holds, said=""):
    global passed, failed
    if holds:
        passed += 1
        print(f"passed: {name}")
    else:
        failed += 1
        print(f"FAILED: {name}\n{said}")


def skip(name, why):
    skipped.append(name)
    print(f"skipped: {name}: {why}")


def run(words, cwd=None, text=None, **variables):
    ran = subprocess.run(words, cwd=cwd, input=text, capture_output=True, text=True, env={**os.environ, **variables}, timeout=120)
    return ran.returncode, ran.stdout, ran.stderr


def project(room):
    """A small project whose build prints what clang printed."""
    at = tempfile.mkdtemp(dir=room)
    for name in os.listdir(SOURCES):
        if os.path.isfile(f"{SOURCES}/{name}"):
            shutil.copy(f"{SOURCES}/{name}", at)
    shutil.copy(LINES, f"{at}/printed.txt")
    with open(f"{at}/Makefile", "w") as file:
        file.write("all:\n\t@cat printed.txt >&2\n")
    return at


@contextlib.contextmanager
def served(folder):
    """The folder on the web, on this machine alone."""
    quiet = type("Quiet", (http.server.SimpleHTTPRequestHandler,), {"log_message": lambda *_: None})
    server = http.server.ThreadingHTTPServer(("127.0.0.1", 0), functools.partial(quiet, directory=folder))
    threading.Thread(target=server.serve_forever, daemon=True).start()
    try:
        yield f"http://127.0.0.1:{server.server_port}"
    finally:
        server.shutdown()


def try_install(folder, tarball, prefix, room):
    began = time.monotonic()
    status, out, err = run(["sh", f"{TOP}/install.sh", "--from", tarball, prefix])
    check("install.sh --from", status == 0 and time.monotonic() - began < 5, out + err)
    for part in ("bin/girzohal", "bin/report", "bin/girzohal_lsp", "share/man/man1/girzohal.1", "include/girzohal.h", "lib/libgirzohal.a"):
        check(f"{part} is installed", os.path.exists(f"{prefix}/{part}"))
    status, out, _ = run([f"{prefix}/bin/girzohal", "--tool", "clang", "printed.txt"], cwd=project(room))
    check("the installed program draws", status in (0, 1) and "cart.c:16:17" in out and "╭─[" in out, out)
    with open(f"{TOP}/VERSION") as file:
        check("its version", run([f"{prefix}/bin/girzohal", "--version"])[1] == f"girzohal {file.read()}")
    spoiled = f"{room}/{os.path.basename(tarball)}"
    shutil.copy(f"{folder}/SHA256SUMS", room)
    with open(tarball, "rb") as one, open(spoiled, "wb") as other:
        other.write(one.read() + b"!")
    status, _, err = run(["sh", f"{TOP}/install.sh", "--from", spoiled, f"{room}/spoiled"])
    check("another tarball than the listed one is refused", status == 1 and not os.path.exists(f"{room}/spoiled"), err)


def try_c(prefix, room):
    if not shutil.which("cc") or not shutil.which("pkg-config"):
        return skip("the library for C", "there is no cc or no pkg-config")
    given = {"PKG_CONFIG_PATH": f"{prefix}/lib/pkgconfig"}
    flags = run(["pkg-config", "--cflags", "--libs", "girzohal"], **given)[1].split()
    shutil.copy(f"{TOP}/bindings/c/example.c", room)
    status, _, err = run(["cc", "-Wall", "-Werror", "example.c", "-o", "example", *flags], cwd=room)
    check("a C program links the installed library", status == 0, err)
    with open(f"{TOP}/bindings/c/example.txt") as file:
        check("and draws", run([f"{room}/example"], LD_LIBRARY_PATH=f"{prefix}/lib")[1] == file.read())


def shown(language):
    """The example of bindings/README.md in a language."""
    return run([sys.executable, "shown.py", "README.md", language], cwd=f"{TOP}/bindings")[1]


def try_packages(folder, version, room):
    """Installs each language's package as bindings/README.md says, and runs its example."""
    with open(f"{TOP}/bindings/c/example.txt") as file:
        wanted = file.read()
    at = tempfile.mkdtemp(dir=room)
    name = f"libgirzohal-{version}-linux-x86_64.tar.gz"
    run(["tar", "xzf", f"{folder}/{name}", "-C", at, "--strip-components=1"])
    for language, compiler, end in (("c", "cc", "c"), ("cpp", "c++", "cpp")):
        if not shutil.which(compiler):
            skip(f"the package for {language}", f"there is no {compiler}")
            continue
        with open(f"{at}/shown.{end}", "w") as file:
            file.write(shown(language))
        given = {"PKG_CONFIG_PATH": f"{at}/lib/pkgconfig", "LD_LIBRARY_PATH": f"{at}/lib"}
        command = f"{compiler} shown.{end} -o shown-{end} $(pkg-config --cflags --libs girzohal) && ./shown-{end}"
        status, out, err = run(["sh", "-c", command], cwd=at, **given)
        check(f"the example in {language}, over its package", out == wanted, out + err)
    if shutil.which("cargo"):
        at = tempfile.mkdtemp(dir=room)
        for it in (f"girzohal-{version}.crate", f"girzohal-sys-{version}.crate"):
            run(["tar", "xzf", f"{folder}/{it}", "-C", at])
        os.makedirs(f"{at}/src")
        with open(f"{at}/src/main.rs", "w") as file:
            file.write(shown("rust"))
        with open(f"{at}/Cargo.toml", "w") as file:
            file.write('[package]\nname = "shown"\nversion = "0.1.0"\nedition = "2021"\n[dependencies]\n'
                       f'girzohal = {{ path = "girzohal-{version}" }}\n[patch.crates-io]\n'
                       f'girzohal-sys = {{ path = "girzohal-sys-{version}" }}\n[workspace]\n')
        status, out, err = run(["cargo", "run", "--offline", "--quiet"], cwd=at)
        check("the example in Rust, over its crates", out == wanted, out + err)
    else:
        skip("the crates for Rust", "there is no cargo")
    at = tempfile.mkdtemp(dir=room)
    run([sys.executable, "-m", "venv", f"{at}/venv"])
    wheel = glob.glob(f"{folder}/girzohal-{version}-*x86_64.whl")[0]
    run([f"{at}/venv/bin/pip", "install", "--no-index", "--quiet", wheel])
    status, out, err = run([f"{at}/venv/bin/python", "-c", shown("python")], cwd=at)
    check("the example in Python, over its wheel", out == wanted, out + err)
    if shutil.which("npm"):
        at = tempfile.mkdtemp(dir=room)
        run(["npm", "install", "--offline", "--silent", f"{folder}/girzohal-{version}.tgz"], cwd=at)
        with open(f"{at}/shown.mjs", "w") as file:
            file.write(shown("js"))
        status, out, err = run(["node", "shown.mjs"], cwd=at)
        check("the example for Node, over its package", out == wanted, out + err)
    else:
        skip("the package for Node", "there is no npm")


def try_github(folder, tarball, version, room):
    """What action.yml runs, from a file and from the web."""
    with served(folder) as url:
        for name, given in (("a tarball", {"GIRZOHAL_FROM": tarball}), ("a download", {"GIRZOHAL_URL": url})):
            at = tempfile.mkdtemp(dir=room)
            made = {"RUNNER_TEMP": at, "GITHUB_PATH": f"{at}/path", "GITHUB_OUTPUT": f"{at}/output", "GIRZOHAL_VERSION": version}
            status, out, err = run(["sh", f"{TOP}/ci/install.sh"], **made, **given)
            check(f"the action installs from {name}", status == 0, out + err)
            with open(f"{at}/path") as file:
                path = file.read().strip()
            command = ["bash", "-eo", "pipefail", "-c", "make 2>&1 | girzohal --to github"]
            status, out, err = run(command, cwd=project(room), PATH=f"{path}:{os.environ['PATH']}")
            check("the job annotates", "::warning file=cart.c,line=16," in out, out + err)
    status, _, err = run(["sh", f"{TOP}/ci/install.sh"], RUNNER_TEMP=room, GIRZOHAL_FROM=f"{folder}/none.tar.gz", GIRZOHAL_VERSION=version)
    check("a tarball that isn't there is an error", status != 0, err)


def try_gitlab(tarball, room):
    try:
        import yaml
    except ImportError:
        return skip("ci/gitlab.yml", "there is no module yaml")
    with open(f"{TOP}/ci/gitlab.yml") as file:
        job = yaml.safe_load(file)[".girzohal"]
    at = project(room)
    script = "\n".join([*job["before_script"], "make 2>&1 | girzohal --to gitlab > gl-code-quality-report.json"])
    given = {name: str(value) for name, value in job["variables"].items()}
    status, out, err = run(["bash", "-c", script], cwd=at, **{**given, "GIRZOHAL_FROM": tarball})
    report = f"{at}/{job['artifacts']['reports']['codequality']}"
    with open(report) as file:
        found = json.load(file)
    check("GitLab's job writes its report", status in (0, 1) and found and found[0]["location"]["path"] == "cart.c", out + err)
    with open(f"{TOP}/action.yml") as file:
        action = yaml.safe_load(file)
    steps = action["runs"]["steps"]
    check("action.yml runs ci/install.sh", [it["run"] for it in steps] == ['sh "$GITHUB_ACTION_PATH/ci/install.sh"'], steps)
    with open(f"{TOP}/.pre-commit-hooks.yaml") as file:
        hooks = yaml.safe_load(file)
    check("the hook's entry can be run", all(os.access(f"{TOP}/{it['entry']}", os.X_OK) for it in hooks), hooks)


def try_pre_commit(prefix, room):
    at, hook = project(room), f"{TOP}/ci/pre-commit.sh"
    given = {"PATH": f"{prefix}/bin:{os.environ['PATH']}"}
    status, out, _ = run([hook, "--tool", "clang", "--", "sh", "-c", "cat printed.txt; exit 3", "cart.c"], cwd=at, **given)
    check("the hook draws, and gives the linter's status", status == 3 and "╭─[cart.c:16:17]" in out, out)
    status, out, _ = run([hook, "--", "true", "cart.c"], cwd=at, **given)
    check("the hook passes where the linter does", (status, out) == (0, ""), out)
    status, _, err = run([hook, "--tool", "clang"], cwd=at, **given)
    check("the hook wants a linter", status == 2 and err.startswith("usage: "), err)


def try_vscode(prefix, room):
    if not shutil.which("node"):
        return skip("editors/vscode-tasks.json", "there is no node")
    out = run([f"{prefix}/bin/girzohal", "--tool", "clang", "--to", "problems", "printed.txt"], cwd=project(room))[1]
    code = ("const task = JSON.parse(require('fs').readFileSync(process.argv[1])).tasks[0];"
            "const it = task.problemMatcher.pattern; const lines = require('fs').readFileSync(0, 'utf8').split('\\n').filter(Boolean);"
            "console.log(JSON.stringify(lines.map(line => { const m = new RegExp(it.regexp).exec(line);"
            " return m && [m[it.file], +m[it.line], +m[it.column], m[it.severity], m[it.message]]; })))")
    status, told, err = run(["node", "-e", code, f"{TOP}/editors/vscode-tasks.json"], text=out)
    found = json.loads(told or "[]")
    check("VS Code's matcher reads each line", status == 0 and len(found) == out.count("\n") > 0 and all(found), told + err)
    check("and its places", ["cart.c", 16, 17, "warning"] in [it[:4] for it in found], told)


def try_neovim(prefix, room):
    if not shutil.which("nvim"):
        return skip("editors/neovim.lua", "there is no nvim")
    at = project(room)
    shutil.copy(LINES, f"{at}/build.log")
    script = f"{at}/look.lua"
    with open(script, "w") as file:
        file.write("vim.defer_fn(function() vim.wait(8000, function() return #vim.diagnostic.get(0) > 0 end, 50)\n"
                   "for _, it in ipairs(vim.diagnostic.get(0)) do io.stdout:write(it.lnum + 1, ' ', it.message, '\\n') end vim.cmd('qa!') end, 100)\n")
    words = ["nvim", "--headless", "-u", "NONE", "--cmd", f"luafile {TOP}/editors/neovim.lua", "--cmd", "filetype on", "cart.c", "-c", f"luafile {script}"]
    status, out, err = run(words, cwd=at, PATH=f"{prefix}/bin:{os.environ['PATH']}")
    check("Neovim shows the log's findings", "16 format specifies type" in out + err, out + err)


def try_vim(prefix, room):
    if not shutil.which("vim"):
        return skip("editors/vim.vim", "there is no vim")
    at = project(room)
    words = ["vim", "-es", "-N", "-u", f"{TOP}/editors/vim.vim", "-c", "silent make", "-c", "redir! > found.txt | silent clist | redir END | qa!"]
    run(words, cwd=at, PATH=f"{prefix}/bin:{os.environ['PATH']}")
    with open(f"{at}/found.txt") as file:
        found = file.read()
    check("Vim lists the findings", "cart.c:16 col 17" in found.replace("-16", "").replace("-18", ""), found)


def try_helix():
    import tomllib
    with open(f"{TOP}/editors/helix.toml", "rb") as file:
        server = tomllib.load(file)["language-server"]["girzohal"]
    check("Helix's snippet names the server", server["command"] == "girzohal_lsp")


def main(folder):
    folder = os.path.abspath(folder)
    found = glob.glob(f"{folder}/girzohal-*-linux-x86_64.tar.gz")
    if len(found) != 1:
        sys.exit(f"try_release.py: there is no release in {folder}")
    version = re.search(r"girzohal-(.*)-linux-x86_64", found[0])[1]
    with tempfile.TemporaryDirectory() as room:
        prefix = f"{room}/prefix"
        try_install(folder, found[0], prefix, room)
        try_c(prefix, room)
        try_packages(folder, version, room)
        try_github(folder, found[0], version, room)
        try_gitlab(found[0], room)
        try_pre_commit(prefix, room)
        try_vscode(prefix, room)
        try_neovim(prefix, room)
        try_vim(prefix, room)
        try_helix()
    if skipped:
        print("skipped: " + ", ".join(skipped))
    print(f"{passed} passed, {failed} failed")
    return failed > 0


if __name__ == "__main__":
    if len(sys.argv) != 2:
        sys.exit(__doc__.split("\n\n")[1])
    sys.exit(main(sys.argv[1]))
