#!/usr/bin/env python3
"""Builds the static library by both compilers: FOLDER/llvm/libgirzohal_c.a and FOLDER/rattle/libgirzohal_c.a.

usage: archive.py [--within SECONDS] [--aarch64] FOLDER      (run anywhere; it needs rt)

With --aarch64, also FOLDER/aarch64/libgirzohal_c.a, by LLVM for 64-bit ARM: for that target the static library is proved
once more.

If `rt ci` has just proved the crates of this checkout, the archives are built over what it left in crates/*/out. Only the
static library is proved once more, since `rt ci` keeps nothing of it from which it could be built. Else `rt lib` builds
them, which proves all crates whose proof isn't kept. With --within, `rt lib` gets so many seconds for each compiler; after
that the status is 3, and what was there is left. Lines that begin with `archive.py: ` say what was proved, and what it
took."""
import os
import shutil
import signal
import subprocess
import sys
import tempfile

TOP = os.path.dirname(os.path.dirname(os.path.abspath(__file__)))
NAME = "girzohal_c"
FOLDER = os.path.join(TOP, "crates", NAME)
COMPILERS = ("llvm", "rattle")
ARM = "aarch64-unknown-linux-gnu"


def kit():
    """The kit's folder, by the command rt."""
    command = shutil.which("rt") or sys.exit("archive.py: there is no rt")
    return os.path.dirname(os.path.dirname(os.path.realpath(command)))


def uses():
    """The libraries that each crate uses, by crates.txt: those of this repository, and those of the kit."""
    found = {}
    with open(os.path.join(TOP, "crates.txt"), encoding="utf-8") as file:
        for line in file:
            name, colon, libraries = line.partition("#")[0].partition(":")
            if colon:
                found[name.split()[0]] = libraries.split()
    own = lambda name: [it for it in found[name] if it in found]
    return own, lambda name: [it for it in found[name] if it not in found]


def below(own, name):
    """The libraries of this repository below a crate, each once."""
    found = []
    for each in own(name):
        found += [it for it in [*below(own, each), each] if it not in found]
    return found


def rlib(name):
    return os.path.join(TOP, "crates", name, "out", "rlib", name + ".rlib")


def is_of_ci(name):
    """Whether `rt ci` left a library here (`rt check` leaves a stamp beside it), and none of its files has changed since."""
    if not os.path.isfile(os.path.join(rlib(name), "format")) or os.path.exists(os.path.join(rlib(name), "..", "stamp")):
        return False
    made, crate = os.stat(rlib(name)).st_mtime, os.path.join(TOP, "crates", name)
    if os.stat(os.path.join(TOP, "crates.txt")).st_mtime > made:
        return False
    for part in ("src", "specs", "proofs"):
        for at, _, files in os.walk(os.path.join(crate, part)):
            if any(os.stat(it).st_mtime > made for it in [at, *(os.path.join(at, file) for file in files)]):
                return False
    return True


def arguments(own, of_kit, libraries, target):
    """The arguments of both the check and the builds."""
    made = ["--crate-name", NAME, "src/lib.rt", "--crate-type", "staticlib", "--links", NAME + "="]
    for name in ["std", *of_kit(NAME)]:
        made += ["--extern", f"{name}={kit()}/rlibs/{name}.rlib"]
    for name in own(NAME):
        made += ["--extern", f"{name}={rlib(name)}"]
    for folder in [f"{kit()}/rlibs", *(os.path.dirname(rlib(name)) for name in libraries)]:
        made += ["-L", "dependency=" + folder]
    return made + ["--antt-project", f"{kit()}/rattle/logic/antt-project.json"] + target


def spent():
    """The processor seconds of all commands that have ended."""
    took = os.times()
    return took.children_user + took.children_system


def over_libraries(own, of_kit, to, compilers, target=()):
    """Proves the static library over libraries that are there, and has each compiler build what was proved. `compilers` are the
    folders of the archives, and which compiler makes each."""
    libraries = below(own, NAME)
    rattle, given = f"{kit()}/bin/rattle", arguments(own, of_kit, libraries, list(target))
    where = f" for {target[1]}" if target else ""
    with tempfile.TemporaryDirectory() as room:
        proved = room + "/proved"
        jobs = "2" if len(os.sched_getaffinity(0)) > 1 else "1"
        check = ["check", *given, "--logic-built", f"{kit()}/logic_built", "--jobs", jobs, "-o", proved]
        steps = [(f"{NAME} was proved once more{where}, and none of the {len(libraries)} libraries below it", check)]
        for folder, compiler in compilers:
            made = ["--crate-checked", proved, "--toolchain", f"{kit()}/toolchain", "--backend", compiler]
            steps.append((f"it was built by {compiler}{where}", ["build", *given, *made, "-o", f"{to}/{folder}/lib{NAME}.a"]))
        for what, step in steps:
            before = spent()
            status = subprocess.run([rattle, *step], cwd=FOLDER).returncode
            if status:
                return status
            print(f"archive.py: {what}: {spent() - before:.0f} processor seconds", flush=True)
        return 0


def by_rt(to, within):
    """Has `rt lib` build it by each compiler."""
    for it in COMPILERS:
        before = spent()
        # a session of its own, so that the provers end with it
        with subprocess.Popen(["rt", "lib", "--backend", it], cwd=FOLDER, start_new_session=True) as ran:
            try:
                status = ran.wait(within)
            except subprocess.TimeoutExpired:
                os.killpg(ran.pid, signal.SIGKILL)
                print(f"archive.py: rt lib had not ended after {within} seconds")
                return 3
        if status:
            return 1
        shutil.copyfile(os.path.join(FOLDER, "out", f"lib{NAME}.a"), f"{to}/{it}/lib{NAME}.a")
        print(f"archive.py: rt lib proved what had no kept proof, and built it by {it}: {spent() - before:.0f} processor seconds", flush=True)
    return 0


def main(given):
    within, aarch64 = None, False
    while len(given) > 1:
        if given[0] == "--within" and len(given) > 2:
            within, given = int(given[1]), given[2:]
        elif given[0] == "--aarch64":
            aarch64, given = True, given[1:]
        else:
            break
    if len(given) != 1:
        sys.exit(__doc__.split("\n\n")[1])
    to = os.path.abspath(given[0])
    for it in [*COMPILERS, *(["aarch64"] if aarch64 else [])]:
        os.makedirs(f"{to}/{it}", exist_ok=True)
    own, of_kit = uses()
    if all(is_of_ci(it) for it in below(own, NAME)):
        status = over_libraries(own, of_kit, to, [(it, it) for it in COMPILERS])
    else:
        status = by_rt(to, within)
    if aarch64 and not status:
        status = over_libraries(own, of_kit, to, [("aarch64", "llvm")], ("--target", ARM))
    return status


if __name__ == "__main__":
    sys.exit(main(sys.argv[1:]))
