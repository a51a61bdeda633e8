#!/bin/sh
# Puts the C packages into OUT: for each archive libgirzohal-VERSION-linux-ARCH.tar.gz, a prefix with the headers, both libraries, and the files of
# pkg-config and CMake. Prints their names.
#
# usage: sh bindings/c/package.sh OUT      (GIRZOHAL_ARCHIVES: the folder of the archives; without it bindings/out)
# shellcheck source-path=SCRIPTDIR source=../packaging.sh
. "$(dirname "$0")/../packaging.sh"

pack() {
    name=libgirzohal-$version-linux-$1
    doc=$room/$name/share/doc/girzohal
    make_c "$1" "$2" PREFIX=/"$name" DESTDIR="$room" install && mkdir -p "$doc" && legal "$doc" &&
        cp README.md example.c example.cpp arrays.c "$doc" &&
        tar -C "$room" --sort=name --owner=0 --group=0 --numeric-owner --mtime=@0 -czf "$to/$name.tar.gz" "$name" &&
        echo "$name.tar.gz"
}

for_each pack
