#!/bin/sh
# Puts the Python packages into OUT: for each archive a wheel with the library inside. Prints their names. It needs no network.
#
# usage: sh bindings/python/package.sh OUT      (GIRZOHAL_ARCHIVES: the folder of the archives; without it bindings/out)
# shellcheck source-path=SCRIPTDIR source=../packaging.sh
. "$(dirname "$0")/../packaging.sh"

pack() {
    make_c "$1" "$2" all && GIRZOHAL_LIBRARY=$room/$1/libgirzohal.so PYTHONDONTWRITEBYTECODE=1 python3 backend.py "$to"
}

for_each pack
