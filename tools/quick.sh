#!/bin/sh
# Tries girzohal and report on cases with what they have to write, on a machine that has nothing proved: both are built unproved, at a
# time, which takes some three minutes on two processors and has to take less than six.
# usage: sh tools/quick.sh
# The last line is `N passed, M failed (unproved build; the gate proves it)`; the status is 0 where M is 0.
cd "$(dirname "$0")/.." || exit 1
for it in rt python3; do
    command -v "$it" >/dev/null 2>&1 || { echo "quick.sh: there is no $it" >&2; exit 2; }
done
exec python3 tools/tries/quick_cases.py
