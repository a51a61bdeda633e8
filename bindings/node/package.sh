#!/bin/sh
# Puts the Node package into OUT: girzohal-VERSION.tgz, which has a compiled part for each archive. Prints its name. It needs no network.
#
# usage: sh bindings/node/package.sh OUT      (GIRZOHAL_ARCHIVES: the folder of the archives; without it bindings/out)
# shellcheck source-path=SCRIPTDIR source=../packaging.sh
. "$(dirname "$0")/../packaging.sh"

# under Node's name of the processor
add() {
    processor=x64
    [ "$1" = x86_64 ] || processor=arm64
    make_c "$1" "$2" "$room/$1/libgirzohal.a" && GIRZOHAL_LIB=$room/$1 node "$room/package/build.js" --arch "$processor" >/dev/null
}

mkdir "$room/package" && legal "$room/package" && cp package.json README.md index.js index.mjs index.d.ts index.d.mts build.js girzohal_node.c \
    ../c/girzohal.h "$room/package" || exit 1
for_each add
cd "$room/package" && npm pack --offline --silent --pack-destination "$to"
