#!/bin/sh
# Makes the packages of a release in a folder, from a checkout whose gate (sh .ci/run) has just passed.
#
# usage: sh tools/release.sh OUT
#
# OUT gets the tarball for Linux on x86-64 (programs, man pages, completions, library and header), the packages for C,
# Rust, Python and Node, also for Linux on aarch64 if its compiler is there, CONTENTS (what is in each package) and
# SHA256SUMS. What can't be made here is named in a line that begins with `skipped:`. The last line is
# `N packages, M skipped`. The status is 1 if a package that can be made here was not made.
set -e
cd "$(dirname "$0")/.."
case $1 in '' | -*) sed -n 's/^# usage: /usage: /p' "$0" >&2; exit 2 ;; esac
mkdir -p "$1"
out=$(cd "$1" && pwd)
version=$(cat VERSION)
name=girzohal-$version-linux-x86_64
made=0
skipped=0
room=$(mktemp -d)
trap 'rm -rf "$room"' EXIT

skip() {
    echo "skipped: $1: $2"
    skipped=$((skipped + 1))
}

# The gate's own builds, and nothing that was changed since.
for program in girzohal report girzohal_lsp; do
    built=crates/$program/out/$program
    [ -x "$built" ] || { echo "release.sh: there is no $built; run sh .ci/run first" >&2; exit 1; }
    changed=$(find crates crates.txt -path '*/out' -prune -o \( -name '*.rt' -o -name crates.txt \) -newer "$built" -print | head -1)
    [ -z "$changed" ] || { echo "release.sh: $changed is newer than $built; run sh .ci/run again" >&2; exit 1; }
done

# The tarball.
tree=$room/$name
put() { mkdir -p "$tree/$2" && install -m "$1" "$3" "$tree/$2/$4"; }
for program in girzohal report girzohal_lsp; do
    put 755 bin "crates/$program/out/$program" "$program"
done
for page in docs/*.1; do put 644 share/man/man1 "$page" "$(basename "$page")"; done
put 644 share/bash-completion/completions completions/girzohal.bash girzohal
put 644 share/zsh/site-functions completions/_girzohal _girzohal
put 644 share/fish/vendor_completions.d completions/girzohal.fish girzohal.fish
for page in README.md CHANGELOG.md LICENSE-APACHE LICENSE-MIT NOTICE; do put 644 share/doc/girzohal "$page" "$page"; done
echo "girzohal $version" >"$tree/VERSION"
archives=$room/archives
arm=
if command -v aarch64-linux-gnu-gcc >/dev/null 2>&1; then
    arm=--aarch64
else
    skip "the packages for Linux on aarch64" "there is no aarch64-linux-gnu-gcc"
fi
if python3 bindings/archive.py $arm "$archives" >"$room/said" 2>&1; then
    make -s -C bindings/c BUILD="$room/c" ARCHIVE="$archives/llvm/libgirzohal_c.a" DESTDIR="$tree" PREFIX= install
    # found wherever the tarball is unpacked (pkg-config reads the variable)
    # shellcheck disable=SC2016
    sed -i 's|^prefix=.*|prefix=${pcfiledir}/../..|' "$tree/lib/pkgconfig/girzohal.pc"
else
    cat "$room/said" >&2
    echo "release.sh: the library can't be built" >&2
    exit 1
fi

# pack FOLDER NAME: the same bytes for the same files
pack() {
    tar --sort=name --mtime="@$(git log -1 --format=%ct)" --owner=0 --group=0 --numeric-owner -C "$1" -cf - "$2" | gzip -n >"$out/$2.tar.gz"
    made=$((made + 1))
    echo "made: $2.tar.gz"
}
pack "$room" "$name"

# The packages of each language: each script prints the names of what it put into the folder.
for language in c rust python node; do
    script=bindings/$language/package.sh
    if GIRZOHAL_ARCHIVES=$archives sh "$script" "$out" >"$room/said" 2>"$room/errors"; then
        while read -r line; do
            case $line in
                skipped:*) echo "$line"; skipped=$((skipped + 1)) ;;
                *) [ ! -e "$out/$line" ] || { echo "made: $line"; made=$((made + 1)); } ;;
            esac
        done <"$room/said"
    else
        cat "$room/said" "$room/errors" >&2
        echo "release.sh: $script failed" >&2
        exit 1
    fi
done

# What is in each, and the checksums.
cp install.sh "$out/"
cd "$out"
rm -f CONTENTS SHA256SUMS
for file in *; do
    [ -f "$file" ] || continue
    echo "$file"
    case $file in
        *.tar.gz | *.tgz | *.crate) tar -tzf "$file" | grep -v '/$' | sort | sed 's/^/    /' ;;
        *.whl | *.zip) python3 -m zipfile -l "$file" | awk 'NR > 1 { print "    " $1 }' ;;
    esac
done >"$room/contents"
cp "$room/contents" CONTENTS
# (a list of files that a shell pattern gives)
# shellcheck disable=SC2035
sha256sum * >"$room/sums"
grep -v ' SHA256SUMS$' "$room/sums" >SHA256SUMS
echo "$made packages, $skipped skipped"
