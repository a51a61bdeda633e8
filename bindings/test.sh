#!/bin/sh
# Builds the library by both compilers, compares what they answer on the examples, and tries it and its packages from C, C++, Rust, Python
# and Node, also on 64-bit ARM, as far as this machine has the tools. The last line is 'N passed, M failed'; the status is 0 if M is 0.
#
# usage: sh bindings/test.sh [-v] [--within SECONDS]
# -v shows what the parts print, also if they pass. If `rt ci` has just proved this checkout, the archives are built over what it left;
# else `rt lib` proves what has no kept proof, which may take an hour from nothing. With --within that gets SECONDS for each compiler,
# and everything is skipped if they aren't enough. `.ci/run` calls this after `rt ci`.

# a part is a function that `part` calls
# shellcheck disable=SC2317
cd "$(dirname "$0")" || exit 1
top=$(cd .. && pwd)
out=$PWD/out
version=$(cat "$top/VERSION")
series=${version%.*}
verbose=
within=
[ "$1" = -v ] && verbose=-v && shift
[ "$1" = --within ] && within=$2
passed=0
failed=0
skipped=
unset GIRZOHAL_ARCHIVES GIRZOHAL_LIB GIRZOHAL_LIBRARY GIRZOHAL_NODE
export PYTHONDONTWRITEBYTECODE=1

has() { command -v "$1" >/dev/null 2>&1; }

# part NAME COMMAND..: runs a part, and shows what it prints if it fails
part() {
    name=$1
    shift
    if "$@" >"$out/said" 2>&1; then
        passed=$((passed + 1))
        echo "passed: $name"
        [ "$verbose" = -v ] && sed 's/^/    /' "$out/said"
    else
        failed=$((failed + 1))
        echo "FAILED: $name"
        tail -40 "$out/said" | sed 's/^/    /'
    fi
    return 0
}

# skip NAME WHY
skip() {
    skipped="$skipped${skipped:+;} $1"
    echo "skipped: $1: $2"
}

finish() {
    [ -n "$skipped" ] && echo "skipped:$skipped"
    echo "$passed passed, $failed failed"
    [ "$failed" -eq 0 ]
    exit
}

# ---- what the files say

versions() {
    grep -q "^version = \"$version\"$" rust/girzohal/Cargo.toml && grep -q "^version = \"$version\"$" rust/girzohal-sys/Cargo.toml &&
        grep -q "^girzohal-sys = { version = \"=$version\"" rust/girzohal/Cargo.toml &&
        grep -q "girzohal >= $series girzohal < " rust/girzohal-sys/build.rs &&
        grep -q "\"version\": \"$version\"" node/package.json && grep -q "^version = \"$version\"$" python/pyproject.toml &&
        grep -q "libgirzohal.so.$series\"" python/src/girzohal/__init__.py
}

# the number of the ABI in the library, its definition, and the wrappers
abis() {
    abi=$(sed -n 's/^#define GIRZOHAL_ABI \([0-9]*\)u$/\1/p' c/girzohal.h)
    [ -n "$abi" ] && grep -q "const ABI: u32 = $abi;" "$top/crates/girzohal_c/src/abi.rt" &&
        grep -q "if abi == $abi then" "$top/crates/girzohal_c/specs/Meaning.antt" &&
        grep -q "^pub const ABI: u32 = $abi;" rust/girzohal-sys/src/lib.rs && grep -q "^_ABI = $abi$" python/src/girzohal/__init__.py
}

# ---- the archives of both compilers, in out/COMPILER, and that for ARM, in out/aarch64

archives() {
    name="the archives by LLVM and by Rattle's own compiler"
    arm=
    has aarch64-linux-gnu-gcc && arm=--aarch64
    python3 archive.py ${within:+--within "$within"} $arm "$out" >"$out/built" 2>&1
    built=$?
    if [ "$built" -eq 3 ]; then
        skip "$name, and all that calls them" "rt lib had not built them within $within seconds"
        finish
    fi
    part "$name" as_built
    [ "$built" -eq 0 ] || finish
    # what was proved for it, and what that took
    grep '^archive.py: ' "$out/built"
}

as_built() { cat "$out/built" && return "$built"; }

# ---- C and C++

make_c() {
    compiler=$1
    shift
    make -s -C c BUILD="$out/$compiler" ARCHIVE="$out/$compiler/libgirzohal_c.a" "$@"
}

# every example, drawn and as JSON, in every theme, by the archive of one compiler
answers() {
    ${CC:-cc} -O2 -std=c99 -Ic -o "$out/$1/answers" c/tests/answers.c "$out/$1/libgirzohal.a" && "$out/$1/answers" >"$out/$1/answers.txt"
}

# same ONE OTHER: whether two of them are the same
same() { cmp "$out/$1/answers.txt" "$out/$2/answers.txt" && test -s "$out/$1/answers.txt"; }

# the shared library's name has the series, and it exports the three calls only
exports() {
    readelf -d "$out/llvm/libgirzohal.so" | grep -q "SONAME.*\[libgirzohal.so.$series\]" &&
        [ "$(nm -D --defined-only "$out/llvm/libgirzohal.so" | sed -n 's/.* T //p' | sort | tr '\n' ' ')" = \
            "girzohal_document@@GIRZOHAL_$series girzohal_draw@@GIRZOHAL_$series girzohal_version@@GIRZOHAL_$series " ]
}

# drawn PROGRAM..: whether a program draws the example
drawn() { "$@" >"$out/drawn.txt" && cmp "$out/drawn.txt" c/example.txt; }

# the unpacked package, used by programs elsewhere
installed_c() {
    rm -rf "$out/prefix" "$out/elsewhere" && mkdir -p "$out/prefix" "$out/elsewhere" || return 1
    tar xzf "$out/packages/libgirzohal-$version-linux-x86_64.tar.gz" -C "$out/prefix" --strip-components=1 || return 1
    flags="-I$out/prefix/include -L$out/prefix/lib -lgirzohal"
    has pkg-config && flags=$(PKG_CONFIG_PATH=$out/prefix/lib/pkgconfig pkg-config --cflags --libs "girzohal >= $series")
    cp c/example.c "$out/elsewhere"
    # shellcheck disable=SC2086
    (cd "$out/elsewhere" && ${CC:-cc} -O2 -o shared example.c $flags) || return 1
    drawn env LD_LIBRARY_PATH="$out/prefix/lib" "$out/elsewhere/shared" || return 1
    readelf -d "$out/elsewhere/shared" | grep -q "NEEDED.*\[libgirzohal.so.$series\]" || return 1
    ${CC:-cc} -O2 -I"$out/prefix/include" -o "$out/elsewhere/static" "$out/elsewhere/example.c" "$out/prefix/lib/libgirzohal.a" || return 1
    drawn "$out/elsewhere/static"
}

# find_package, in C and C++, shared and static, and for versions that fit and that don't
by_cmake() {
    rm -rf "$out/cmake" && mkdir -p "$out/cmake" && cp c/example.c c/example.cpp "$out/cmake" || return 1
    cat >"$out/cmake/CMakeLists.txt" <<'CMAKE'
cmake_minimum_required(VERSION 3.10)
project(example C CXX)
find_package(girzohal ${WANTED} REQUIRED)
add_executable(shared example.c)
target_link_libraries(shared girzohal::girzohal)
add_executable(static example.cpp)
target_link_libraries(static girzohal::static)
CMAKE
    for it in "" "$series" "$version"; do
        cmake -S "$out/cmake" -B "$out/cmake/build" -DCMAKE_PREFIX_PATH="$out/prefix" -DWANTED="$it" || return 1
    done
    cmake --build "$out/cmake/build" && drawn "$out/cmake/build/shared" && drawn "$out/cmake/build/static" || return 1
    for it in 0.0 0.2 1 1.0; do
        ! cmake -S "$out/cmake" -B "$out/cmake/other" -DCMAKE_PREFIX_PATH="$out/prefix" -DWANTED="$it" || return 1
    done
}

valgrind_calls() {
    valgrind -q --leak-check=full --error-exitcode=9 "$out/llvm/calls" && valgrind -q --leak-check=full --error-exitcode=9 "$out/llvm/sources"
}

# whether the compiler's sanitizers link and run here
sanitizes() {
    echo 'int main(void) { return 0; }' >"$out/probe.c"
    ${CC:-cc} -fsanitize=address,undefined -o "$out/probe" "$out/probe.c" 2>/dev/null && "$out/probe" 2>/dev/null
}

sanitized() {
    for it in calls sources; do
        ${CC:-cc} -O1 -g -fsanitize=address,undefined -fno-sanitize-recover=all -std=c99 -Ic -pthread -D_POSIX_C_SOURCE=200809L \
            -DVERSION="\"$version\"" -o "$out/llvm/sanitized" "c/tests/$it.c" "$out/llvm/libgirzohal.a" && "$out/llvm/sanitized" || return 1
    done
}

# the archive with allocations that can be made to fail
starved() {
    mkdir -p "$out/starved" && objcopy --redefine-sym malloc=girzohal_starving_malloc \
        --redefine-sym calloc=girzohal_starving_calloc --redefine-sym realloc=girzohal_starving_realloc \
        "$out/llvm/libgirzohal.a" "$out/starved/libgirzohal.a" || return 1
    ${CC:-cc} -O2 -fPIC -c c/tests/starving.c -o "$out/starved/starving.o" || return 1
    ar r "$out/starved/libgirzohal.a" "$out/starved/starving.o" || return 1
    ${CC:-cc} -shared -o "$out/starved/libgirzohal.so" -Wl,--whole-archive "$out/starved/libgirzohal.a" -Wl,--no-whole-archive
}

# a library of another ABI, instead of the right one
other_abi() {
    mkdir -p "$out/other_abi" && ${CC:-cc} -O2 -fPIC -Ic -c c/tests/other_abi.c -o "$out/other_abi/other.o" &&
        ar rc "$out/other_abi/libgirzohal.a" "$out/other_abi/other.o" &&
        ${CC:-cc} -shared -o "$out/other_abi/libgirzohal.so" "$out/other_abi/other.o"
}

rust_other_abi() {
    (cd rust && GIRZOHAL_LIB=$out/other_abi RUSTFLAGS="--cfg other_abi" CARGO_TARGET_DIR=$out/rust_other_abi \
        cargo test --offline --quiet --test other_abi)
}

python_other_abi() {
    (cd python && ! PYTHONPATH=src GIRZOHAL_LIBRARY=$out/other_abi/libgirzohal.so python3 -c "import girzohal" 2>"$out/other_abi/python.txt") &&
        grep "^ImportError: girzohal: the library .* is of another version. Install the wheel" "$out/other_abi/python.txt"
}

node_other_abi() {
    (cd node && export GIRZOHAL_NODE="$out/other_abi/girzohal.node" && GIRZOHAL_LIB=$out/other_abi node build.js &&
        ! node -e 'const { Sources, draw } = require("."); draw(new Sources(), [])' 2>"$out/other_abi/node.txt") &&
        grep "^DrawError: the library has another ABI" "$out/other_abi/node.txt" && grep "kind: 'wrongAbi'" "$out/other_abi/node.txt"
}

# ---- ARM

arm_answers() {
    aarch64-linux-gnu-gcc -O2 -std=c99 -Ic -o "$out/aarch64/answers" c/tests/answers.c "$out/aarch64/libgirzohal.a" &&
        qemu-aarch64 -L /usr/aarch64-linux-gnu "$out/aarch64/answers" >"$out/aarch64/answers.txt" && same llvm aarch64
}

# ---- the pages' examples, unchanged

# shown PAGE LANGUAGE FILE
shown() { python3 shown.py "$1" "$2" >"$3"; }

shown_c() {
    shown README.md c "$out/shown.c" &&
        ${CC:-cc} -O2 -Wall -Wextra -I"$out/prefix/include" -o "$out/shown_c" "$out/shown.c" "$out/prefix/lib/libgirzohal.a" && drawn "$out/shown_c"
}

shown_cpp() {
    shown README.md cpp "$out/shown.cpp" &&
        ${CXX:-c++} -O2 -Wall -Wextra -I"$out/prefix/include" -o "$out/shown_cpp" "$out/shown.cpp" "$out/prefix/lib/libgirzohal.a" && drawn "$out/shown_cpp"
}

# ---- Rust

# rust FOLDER ARGUMENTS
# shellcheck disable=SC2086
rust() { (cd rust && GIRZOHAL_LIB=$1 CARGO_TARGET_DIR=$out/rust cargo test --offline --quiet $2); }

rust_starved() {
    (cd rust && GIRZOHAL_LIB=$out/starved RUSTFLAGS="--cfg starved" CARGO_TARGET_DIR=$out/rust_starved cargo test --offline --quiet --test starved)
}

rust_pages() { (cd rust && RUSTDOCFLAGS="-D warnings" DOCS_RS=1 CARGO_TARGET_DIR=$out/rust_pages cargo doc --offline --no-deps --quiet); }

rust_dynamic() {
    (cd rust && GIRZOHAL_LIB=$out/llvm LD_LIBRARY_PATH=$out/llvm CARGO_TARGET_DIR=$out/rust_dynamic cargo test --offline --quiet --features girzohal/dynamic)
}

# without a library, and for a target that there is none for, the build says what to do
rust_errors() {
    (cd rust && ! GIRZOHAL_LIB=$out/nowhere CARGO_TARGET_DIR=$out/rust_errors cargo check --offline 2>"$out/rust_errors.txt") &&
        grep "girzohal-sys: GIRZOHAL_LIB is $out/nowhere, but there is no libgirzohal.a in it" "$out/rust_errors.txt" || return 1
    (cd rust && ! CARGO_TARGET_DIR=$out/rust_errors cargo check --offline --target x86_64-unknown-linux-musl 2>"$out/rust_errors.txt") &&
        grep "girzohal-sys: there is no library for the target x86_64-unknown-linux-musl, only for" "$out/rust_errors.txt"
}

# a program that uses the unpacked packages and nothing else; it has the pages' examples
rust_packages() {
    rm -rf "$out/shown" && mkdir -p "$out/shown/src/bin" || return 1
    for it in girzohal girzohal-sys; do tar xzf "$out/packages/$it-$version.crate" -C "$out/shown" || return 1; done
    cat >"$out/shown/Cargo.toml" <<TOML
[package]
name = "shown"
version = "0.0.0"
edition = "2021"

[dependencies]
girzohal = { path = "girzohal-$version" }

[patch.crates-io]
girzohal-sys = { path = "girzohal-sys-$version" }
TOML
    shown ../README.md rust "$out/shown/src/bin/front.rs" && shown README.md rust "$out/shown/src/bin/page.rs" || return 1
    for it in front page; do
        (cd "$out/shown" && CARGO_TARGET_DIR=$out/rust_shown cargo run --offline --quiet --bin "$it") >"$out/shown.txt" || return 1
        cmp "$out/shown.txt" c/example.txt || return 1
    done
}

# ---- Python

python() { (cd python && PYTHONPATH=src GIRZOHAL_LIBRARY=$1 python3 -m unittest discover -q -s tests); }

# the wheel in a new environment, without a network
python_package() {
    rm -rf "$out/venv" && python3 -m venv "$out/venv" && "$out/venv/bin/pip" install -q --no-index --find-links "$out/packages" girzohal || return 1
    (cd "$out" && drawn_by "$out/venv/bin/python") || return 1
    "$out/venv/bin/python" -m unittest discover -q -s python/tests && "$out/venv/bin/pip" uninstall -q -y girzohal &&
        GIRZOHAL_LIBRARY=$out/llvm/libgirzohal.so "$out/venv/bin/pip" install -q --no-index ./python && (cd "$out" && drawn_by "$out/venv/bin/python")
}

# (run elsewhere, so that the page's path and the expected drawing have to be whole)
drawn_by() { (cd "$top/bindings" && shown README.md python "$out/shown.py") && "$1" "$out/shown.py" | cmp - "$top/bindings/c/example.txt"; }

# ---- Node

node_module() { (cd node && GIRZOHAL_LIB=$out/llvm node build.js && node --test test/); }

# the package in a new folder, without a network
node_package() {
    rm -rf "$out/npm" && mkdir -p "$out/npm" && echo '{ "name": "shown", "version": "0.0.0", "private": true }' >"$out/npm/package.json" || return 1
    (cd "$out/npm" && npm install --offline --no-audit --no-fund --silent "$out/packages/girzohal-$version.tgz") || return 1
    shown README.md js "$out/npm/shown.mjs" || return 1
    sed 's/^import \(.*\) from \(.*\);$/const \1 = require(\2);/' "$out/npm/shown.mjs" >"$out/npm/shown.cjs"
    drawn node "$out/npm/shown.mjs" && drawn node "$out/npm/shown.cjs" || return 1
    (cd "$out/npm/node_modules/girzohal" && rm -r prebuilt && ! node ../../shown.mjs 2>"$out/npm/error.txt") &&
        grep -q "girzohal: the compiled part .* can't be loaded: .*node build.js" "$out/npm/error.txt" || return 1
    (cd "$out/npm/node_modules/girzohal" && GIRZOHAL_LIB=$out/llvm npm run --silent build) && drawn node "$out/npm/shown.mjs"
}

# ---- all of it

mkdir -p "$out" || exit 1
part "one version everywhere" versions
part "one ABI everywhere" abis
has python3 && part "the tables of examples are new" python3 examples.py --check
if ! has rt || ! has python3; then
    skip everything "there is no rt or no python3"
    failed=$((failed + 1))
    finish
fi
archives

# what is built below, and not left from an earlier run
rm -rf "$out"/*/libgirzohal.a "$out"/*/libgirzohal.so "$out/packages"
if has "${CC:-cc}" && has make; then
    part "libraries for C" make_c llvm all
    part "an archive for C by Rattle's own compiler" make_c rattle all
    part "answers on the examples, by LLVM" answers llvm
    part "answers on the examples, by Rattle's own compiler" answers rattle
    part "both compilers answer the same" same llvm rattle
    part "the shared library's name and exports" exports
    if has "${CXX:-c++}"; then
        part "C and C++" make_c llvm test
        part "C and C++ by Rattle's own compiler" make_c rattle test
    else
        skip "C and C++" "there is no ${CXX:-c++}"
    fi
    part "the C package" sh c/package.sh "$out/packages"
    part "the C package, unpacked elsewhere" installed_c
    if has cmake && has "${CXX:-c++}"; then part "the C package by CMake" by_cmake; else skip CMake "there is no cmake or no ${CXX:-c++}"; fi
    part "the page's example in C" shown_c
    if has "${CXX:-c++}"; then part "the page's example in C++" shown_cpp; else skip "the page's example in C++" "there is no ${CXX:-c++}"; fi
    if has valgrind; then part "valgrind" valgrind_calls; else skip valgrind "there is no valgrind"; fi
    if sanitizes; then
        part "address and undefined behavior sanitizers" sanitized
    else
        skip "address and undefined behavior sanitizers" "${CC:-cc} has none"
    fi
    if has objcopy; then part "an archive that starves" starved; else skip "an archive that starves" "there is no objcopy"; fi
    part "a library of another ABI" other_abi
else
    skip "C and C++" "there is no ${CC:-cc} or no make"
fi

if [ -f "$out/aarch64/libgirzohal_c.a" ] && has aarch64-linux-gnu-g++; then
    part "libraries for ARM" make_c aarch64 ARCH=aarch64 all
    if has qemu-aarch64; then
        part "C and C++ on ARM" make_c aarch64 ARCH=aarch64 test
        part "ARM answers the same" arm_answers
    else
        skip "ARM's tests" "there is no qemu-aarch64"
    fi
else
    skip ARM "there is no aarch64-linux-gnu-gcc or no aarch64-linux-gnu-g++"
fi

if has cargo && [ -f "$out/llvm/libgirzohal.a" ]; then
    part "Rust" rust "$out/llvm"
    part "Rust with the shared library" rust_dynamic
    part "Rust's pages" rust_pages
    part "Rust without a library" rust_errors
    part "Rust with another ABI" rust_other_abi
    part "the Rust packages" sh rust/package.sh "$out/packages"
    part "the Rust packages, used elsewhere" rust_packages
    if [ -f "$out/starved/libgirzohal.a" ]; then
        part "Rust out of memory" rust_starved
    else
        skip "Rust out of memory" "there is no archive that starves"
    fi
else
    skip Rust "there is no cargo, or no library"
fi

if [ -f "$out/llvm/libgirzohal.so" ]; then
    part "Python" python "$out/llvm/libgirzohal.so"
    part "Python with another ABI" python_other_abi
    part "the Python package" sh python/package.sh "$out/packages"
    if python3 -c "import ensurepip, venv" 2>/dev/null; then
        part "the Python package in a new environment" python_package
    else
        skip "the Python package in a new environment" "there is no venv or no ensurepip"
    fi
    if [ -f "$out/starved/libgirzohal.so" ]; then
        part "Python out of memory" python "$out/starved/libgirzohal.so"
    else
        skip "Python out of memory" "there is no library that starves"
    fi
else
    skip Python "there is no shared library"
fi

headers=
has node && headers=$(node -p 'require("path").resolve(process.execPath, "../../include/node")')
if [ -n "$headers" ] && [ -f "$headers/node_api.h" ] && [ -f "$out/llvm/libgirzohal.a" ]; then
    part "Node" node_module
    part "Node with another ABI" node_other_abi
    if has npm; then
        part "the Node package" sh node/package.sh "$out/packages"
        part "the Node package in a new folder" node_package
    else
        skip "the Node package" "there is no npm"
    fi
else
    skip Node "there is no node with its headers, or no library"
fi
finish
