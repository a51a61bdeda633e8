#!/bin/sh
# Refuses the allocations of some runs one after another, and says how the runs ended: of the program's stored run, of two
# ordinary reports, of a run with --json, of one with --make, and of a test in which a scanner reads on after it was out of memory.
# A run of the program is tried twice for each allocation: with that one refused, and with that one and all later ones refused.
# It must end with status 6 and an empty output; if one alone is refused, the whole output with status 0 is right as well,
# since a list that can't grow twofold asks for less. The test must pass whichever allocation is refused.
# It is no part of the gate. It wants the kit's rt and a C compiler: program and test are built by `rt run` and `rt test`, and a
# small library that counts and refuses is laid before the C library's `malloc` and `realloc`.
cd "$(dirname "$0")/../.." || exit 1
work=$(mktemp -d) || exit 1
trap 'rm -rf "$work"' EXIT
cat > "$work/refuse.c" <<'END'
#define _GNU_SOURCE
#include <dlfcn.h>
#include <stdio.h>
#include <stdlib.h>

static unsigned long asked, nth;
static int all;

__attribute__((constructor)) static void begin(void) {
    const char *word = getenv("REFUSE");
    nth = word ? strtoul(word, NULL, 10) : 0;
    all = getenv("REFUSE_ALL") != NULL;
    asked = 0;
}

__attribute__((destructor)) static void end(void) {
    const char *file = getenv("REFUSE_COUNT");
    unsigned long count = asked;
    FILE *out = file ? fopen(file, "w") : NULL;
    if (out) {
        fprintf(out, "%lu\n", count);
        fclose(out);
    }
}

static int refused(void) {
    asked++;
    return nth && (asked == nth || (all && asked > nth));
}

void *malloc(size_t size) {
    static void *(*next)(size_t);
    if (!next) next = dlsym(RTLD_NEXT, "malloc");
    return refused() ? NULL : next(size);
}

void *realloc(void *old, size_t size) {
    static void *(*next)(void *, size_t);
    if (!next) next = dlsym(RTLD_NEXT, "realloc");
    return refused() ? NULL : next(old, size);
}
END
cc -shared -fPIC -O2 -o "$work/refuse.so" "$work/refuse.c" -ldl || exit 1
(cd crates/report && rt run < stdin > "$work/built" 2>&1) || { cat "$work/built"; exit 1; }
program=$PWD/crates/report/out/report
failed=0

# One run with the allocations refused that the environment names; what it wrote is in $work/out.
once() {
    env LD_PRELOAD="$work/refuse.so" "$@" < "$input" > "$work/out" 2> "$work/err"
}

# Each allocation of one run.
each() {
    name=$1
    input=$2
    shift 2
    once REFUSE_COUNT="$work/count" "$program" "$@" || { echo "$name: fails by itself"; failed=1; return; }
    cp "$work/out" "$work/whole"
    count=$(cat "$work/count")
    alone=0
    for n in $(seq 1 "$count"); do
        once REFUSE="$n" "$program" "$@"
        status=$?
        if [ $status = 0 ] && cmp -s "$work/out" "$work/whole"; then
            alone=$((alone + 1))
        elif [ $status != 6 ] || [ -s "$work/out" ]; then
            echo "$name: allocation $n refused: status $status, $(wc -c < "$work/out") bytes written"
            failed=1
        fi
        once REFUSE="$n" REFUSE_ALL=1 "$program" "$@"
        status=$?
        if [ $status != 6 ] || [ -s "$work/out" ]; then
            echo "$name: allocations from $n on refused: status $status, $(wc -c < "$work/out") bytes written"
            failed=1
        fi
    done
    echo "$name: $count allocations; $((count - alone)) refused alone ended with status 6 and $alone were made up for; from each on, status 6"
}

each "the stored run" crates/report/stdin
each "two ordinary reports" examples/two-reports.json
each "as JSON" crates/report/stdin --json
each "a generated document" /dev/null --make 20

(cd crates/text_tests && rt test > "$work/built" 2>&1) || { cat "$work/built"; exit 1; }
program=$PWD/crates/text_tests/out/text_tests_tests
name=of_oxc_windows::a_scanner_reads_on_after_want_of_memory
input=/dev/null
once REFUSE_COUNT="$work/count" "$program" "$name" || { echo "$name: fails by itself"; exit 1; }
count=$(cat "$work/count")
for n in $(seq 1 "$count"); do
    once REFUSE="$n" "$program" "$name" || { echo "$name: allocation $n refused: fails"; failed=1; }
done
echo "$name: $count allocations; it was tried with each of them refused"
exit $failed
