#!/bin/sh
# Installs girzohal below a folder.
#
# usage: sh install.sh PREFIX                  proves, builds and installs it from this checkout
#        sh install.sh --from TARBALL PREFIX   installs a release that tools/release.sh made, in a second
#
# From a checkout: the program, its man page, and completions for bash, zsh and fish. From a release also the other
# programs, and the library for C with its header. DESTDIR is put before PREFIX. GIRZOHAL names a program that is
# built already.
set -e
usage() { sed -n 's/^# usage: /usage: /p; s/^#        sh /       sh /p' "$0" >&2; exit 2; }
from=
if [ "$1" = --from ]; then
    [ $# -eq 3 ] || usage
    from=$2
    shift 2
fi
case $1 in '' | -*) usage ;; esac
[ $# -eq 1 ] || usage
prefix=$DESTDIR$1

if [ -n "$from" ]; then
    [ -r "$from" ] || { echo "install.sh: $from can't be read" >&2; exit 1; }
    # the checksum is compared if the list of checksums lies beside the tarball
    sums=$(dirname "$from")/SHA256SUMS
    if [ -r "$sums" ] && command -v sha256sum >/dev/null 2>&1; then
        wanted=$(awk -v name="$(basename "$from")" '$2 == name { print $1 }' "$sums")
        if [ -n "$wanted" ] && [ "$wanted" != "$(sha256sum <"$from" | cut -d' ' -f1)" ]; then
            echo "install.sh: $from is not the file that $sums lists" >&2
            exit 1
        fi
    fi
    room=$(mktemp -d)
    trap 'rm -rf "$room"' EXIT
    tar -xzf "$from" -C "$room"
    set -- "$room"/*/bin/girzohal
    [ -f "$1" ] || { echo "install.sh: $from is no release of girzohal for this kind of machine" >&2; exit 1; }
    inside=$(dirname "$(dirname "$1")")
    mkdir -p "$prefix"
    for part in bin include lib share; do
        [ ! -d "$inside/$part" ] || cp -R "$inside/$part" "$prefix/"
    done
    echo "installed below $prefix: $(cat "$inside/VERSION" 2>/dev/null)"
    exit
fi

top=$(cd "$(dirname "$0")" && pwd)
program=$GIRZOHAL
if [ -z "$program" ]; then
    program=$top/crates/girzohal/out/girzohal
    # it is proved, built and run once
    (cd "$top/crates/girzohal" && rt run -- --version)
fi
put() { mkdir -p "$prefix/$2" && install -m "$1" "$3" "$prefix/$2/$4"; }
put 755 bin "$program" girzohal
put 644 share/man/man1 "$top/docs/girzohal.1" girzohal.1
put 644 share/bash-completion/completions "$top/completions/girzohal.bash" girzohal
put 644 share/zsh/site-functions "$top/completions/_girzohal" _girzohal
put 644 share/fish/vendor_completions.d "$top/completions/girzohal.fish" girzohal.fish
echo "installed below $prefix: bin/girzohal, its man page, and completions"
