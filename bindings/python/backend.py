"""Writes the wheel, with the library inside: pip calls it as pyproject.toml says, and package.sh runs it.

usage: backend.py OUT    (in this folder; it prints the wheel's name)

The library is the file that the variable GIRZOHAL_LIBRARY names, else libgirzohal.so beside the package, else the one that
`make -C bindings/c` left. It needs nothing but Python, so that it works without a network.
"""

import base64
import hashlib
import os
import re
import sys
import zipfile

HERE = os.path.dirname(os.path.abspath(__file__))
PLACES = ("src/girzohal/libgirzohal.so", "../c/out/libgirzohal.so")
MACHINES = {62: "x86_64", 183: "aarch64"}


def read(name):
    with open(os.path.join(HERE, name), "rb") as file:
        return file.read()


def project():
    """The texts of pyproject.toml's table `project`."""
    table = read("pyproject.toml").decode().partition("[project]")[2]
    return dict(re.findall(r'^([a-z-]+) = "(.*)"$', table, re.M))


def library():
    """The bytes of the library."""
    given = os.environ.get("GIRZOHAL_LIBRARY")
    for path in [given] if given else [os.path.join(HERE, place) for place in PLACES]:
        if os.path.isfile(path):
            with open(path, "rb") as file:
                return file.read()
    sys.exit("girzohal: there is no libgirzohal.so: let GIRZOHAL_LIBRARY name it, or run `make -C bindings/c` first")


def tag(code):
    """The wheel's tag, by the processor and the newest glibc that the library names."""
    machine = MACHINES[int.from_bytes(code[18:20], "little")]
    newest = max([17, *(int(it) for it in re.findall(rb"GLIBC_2\.(\d+)", code))])
    return f"py3-none-manylinux_2_{newest}_{machine}"


def metadata(said):
    head = [
        "Metadata-Version: 2.1", f"Name: {said['name']}", f"Version: {said['version']}", f"Summary: {said['description']}",
        "License: MIT OR Apache-2.0", f"Requires-Python: {said['requires-python']}", "Classifier: Typing :: Typed",
        "Classifier: Operating System :: POSIX :: Linux", "Description-Content-Type: text/markdown",
    ]  # fmt: skip
    return ("\n".join(head) + "\n\n").encode() + read(said["readme"])


def contents(said, code):
    """The wheel's files but for RECORD: names and bytes."""
    info = f"{said['name']}-{said['version']}.dist-info"
    files = {f"girzohal/{name}": read(f"src/girzohal/{name}") for name in ("__init__.py", "py.typed")}
    files["girzohal/libgirzohal.so"] = code
    files[f"{info}/METADATA"] = metadata(said)
    files[f"{info}/WHEEL"] = f"Wheel-Version: 1.0\nGenerator: girzohal\nRoot-Is-Purelib: false\nTag: {tag(code)}\n".encode()
    for name in ("LICENSE-APACHE", "LICENSE-MIT", "NOTICE"):
        if os.path.isfile(os.path.join(HERE, "..", "..", name)):
            files[f"{info}/licenses/{name}"] = read(f"../../{name}")
    return info, files


def record(info, files):
    rows = []
    for name, content in files.items():
        digest = base64.urlsafe_b64encode(hashlib.sha256(content).digest()).rstrip(b"=").decode()
        rows.append(f"{name},sha256={digest},{len(content)}\n")
    return "".join(rows + [f"{info}/RECORD,,\n"]).encode()


def build_wheel(wheel_directory, config_settings=None, metadata_directory=None):
    said, code = project(), library()
    info, files = contents(said, code)
    files[f"{info}/RECORD"] = record(info, files)
    name = f"{said['name']}-{said['version']}-{tag(code)}.whl"
    with zipfile.ZipFile(os.path.join(wheel_directory, name), "w", zipfile.ZIP_DEFLATED) as wheel:
        for path, content in files.items():
            entry = zipfile.ZipInfo(path)  # of a fixed date, so that the same files give the same wheel
            entry.external_attr = (0o755 if path.endswith(".so") else 0o644) << 16
            entry.compress_type = zipfile.ZIP_DEFLATED
            wheel.writestr(entry, content)
    return name


if __name__ == "__main__":
    if len(sys.argv) != 2:
        sys.exit(__doc__)
    print(build_wheel(sys.argv[1]))
