# For the scripts LANGUAGE/package.sh, which read this: their arguments, and the archives that bindings/archive.py has built. It sets
# `to`, the folder of the packages; `archives`; `version`; and `room`, a folder for the time of the script; and goes to the script's folder.
# shellcheck shell=sh
if [ $# -ne 1 ]; then
    sed -n 's/^# usage: /usage: /p' "$0" >&2
    exit 2
fi
mkdir -p "$1" || exit 1
to=$(cd "$1" && pwd)
archives=$(cd "${GIRZOHAL_ARCHIVES:-$(dirname "$0")/../out}" 2>/dev/null && pwd)
cd "$(dirname "$0")" || exit 1
# shellcheck disable=SC2034
version=$(cat ../../VERSION)
if [ ! -f "$archives/llvm/libgirzohal_c.a" ]; then
    echo "package.sh: there is no archive: build it with \`python3 bindings/archive.py bindings/out\`, or let GIRZOHAL_ARCHIVES name its folder" >&2
    exit 1
fi
room=$(mktemp -d) || exit 1
trap 'rm -rf "$room"' EXIT

# for_each COMMAND: calls it with the processor and the archive of each target
for_each() {
    "$1" x86_64 "$archives/llvm/libgirzohal_c.a" || exit 1
    [ ! -f "$archives/aarch64/libgirzohal_c.a" ] || "$1" aarch64 "$archives/aarch64/libgirzohal_c.a" || exit 1
}

# make_c ARCH ARCHIVE TARGET..: makes targets of bindings/c, into $room/ARCH
make_c() {
    arch=$1
    archive=$2
    shift 2
    make -s -C ../c ARCH="$arch" ARCHIVE="$archive" BUILD="$room/$arch" "$@"
}

# legal FOLDER: copies the licences there
legal() { cp ../../LICENSE-APACHE ../../LICENSE-MIT ../../NOTICE "$1"; }
