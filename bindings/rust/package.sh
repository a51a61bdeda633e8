#!/bin/sh
# Puts the Rust packages into OUT: girzohal-sys-VERSION.crate, which has the library for each target that there is an archive for, and
# girzohal-VERSION.crate. Prints their names. It needs no network.
#
# usage: sh bindings/rust/package.sh OUT      (GIRZOHAL_ARCHIVES: the folder of the archives; without it bindings/out)
# shellcheck source-path=SCRIPTDIR source=../packaging.sh
. "$(dirname "$0")/../packaging.sh"

add() {
    folder=$room/girzohal-sys/archive/$1-unknown-linux-gnu
    make_c "$1" "$2" "$room/$1/libgirzohal.a" && mkdir -p "$folder" && mv "$room/$1/libgirzohal.a" "$folder"
}

mkdir "$room/girzohal" "$room/girzohal-sys" && cp Cargo.toml "$room" && cp -R girzohal/Cargo.toml girzohal/README.md girzohal/src "$room/girzohal" &&
    cp -R girzohal-sys/Cargo.toml girzohal-sys/README.md girzohal-sys/build.rs girzohal-sys/src "$room/girzohal-sys" &&
    legal "$room/girzohal" && legal "$room/girzohal-sys" || exit 1
for_each add
(cd "$room" && CARGO_TARGET_DIR="$room/target" cargo package --workspace --offline --quiet) || exit 1
for it in girzohal-sys girzohal; do
    cp "$room/target/package/$it-$version.crate" "$to" && echo "$it-$version.crate" || exit 1
done
