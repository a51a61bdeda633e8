#!/bin/sh
# Makes the reference from the sources: every public call with its conditions (CALLS.md), and every word of the clauses with its
# definition (CLAUSE_WORDS.md).
# usage: sh tools/reference.sh [FOLDER]     (default: docs/reference, which git ignores)
# The status is 1 where a word has no definition.
cd "$(dirname "$0")/.." || exit 1
to=${1:-docs/reference}
mkdir -p "$to" && python3 tools/pages/calls.py "$to" && python3 tools/pages/clause_words.py "$to" && echo "made $to/CALLS.md and $to/CLAUSE_WORDS.md"
