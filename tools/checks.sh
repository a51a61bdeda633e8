#!/bin/sh
# What the documents say of the sources, checked by the scripts of tools/, and the man pages by mandoc.
# usage: sh tools/checks.sh
# The last line is `N passed, M failed`; the status is 0 where M is 0. What isn't there to check with is said, and passes nothing.
cd "$(dirname "$0")/.." || exit 1
passed=0
failed=0
if command -v python3 >/dev/null 2>&1; then
    for script in pages/check_docs.py "edits.py --check" pages/check_documents.py; do
        # an entry is split into the script and its arguments
        # shellcheck disable=SC2086
        if python3 tools/$script; then
            passed=$((passed + 1))
        else
            failed=$((failed + 1))
        fi
    done
    room=$(mktemp -d) || exit 1
    if sh tools/reference.sh "$room" >"$room/said" 2>&1; then
        echo "the reference can be made"
        passed=$((passed + 1))
    else
        cat "$room/said"
        failed=$((failed + 1))
    fi
    rm -rf "$room"
else
    echo "skipped: check_docs.py, edits.py, check_documents.py, reference.sh: there is no python3"
fi
if command -v mandoc >/dev/null 2>&1; then
    # (what it says of its own list of manuals isn't about the page)
    if mandoc -T lint -W warning docs/*.1; then
        echo "the man pages are as mandoc wants them"
        passed=$((passed + 1))
    else
        failed=$((failed + 1))
    fi
else
    echo "skipped: docs/*.1: there is no mandoc"
fi
echo "$passed passed, $failed failed"
[ "$failed" -eq 0 ]
