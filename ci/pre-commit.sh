#!/bin/sh
# Runs a linter and draws what it prints. The words before `--` are girzohal's options, those after it the linter's.
#
# usage: pre-commit.sh [OPTION].. -- LINTER [WORD].. FILE..
#
# The status is not 0 if the linter's is not, or if girzohal's is not. GIRZOHAL names the program; without it, it is
# searched for on PATH.
program=${GIRZOHAL:-girzohal}
command -v "$program" >/dev/null 2>&1 || {
    echo "pre-commit.sh: girzohal isn't installed: no $program on PATH" >&2
    exit 2
}
options=
count=0
for word in "$@"; do
    count=$((count + 1))
    [ "$word" = -- ] && break
    # quoted, so that each word stays one
    options="$options '$(printf %s "$word" | sed "s/'/'\\\\''/g")'"
done
if [ "$word" != -- ] || [ $# -le "$count" ]; then
    echo "usage: pre-commit.sh [OPTION].. -- LINTER [WORD].. FILE.." >&2
    exit 2
fi
shift "$count"
room=$(mktemp) || exit 2
trap 'rm -f "$room"' EXIT
{ "$@" 2>&1; echo $? >"$room"; } | eval "\"\$program\" $options"
drawn=$?
linted=$(cat "$room")
[ "$linted" -eq 0 ] || exit "$linted"
exit "$drawn"
