#!/bin/sh
# Installs a release of girzohal for a CI job, from a tarball or from the web.
#
# Variables: GIRZOHAL_VERSION (the release), GIRZOHAL_FROM (the path of its tarball; else it is downloaded),
# GIRZOHAL_URL (the folder of the release on the web), GIRZOHAL_PREFIX (where it goes).
# On GitHub the folder of the programs is added to PATH for the steps that follow.
set -e
here=$(cd "$(dirname "$0")" && pwd)
version=${GIRZOHAL_VERSION:-0.1.0}
prefix=${GIRZOHAL_PREFIX:-${RUNNER_TEMP:-${TMPDIR:-/tmp}}/girzohal-$version}
tarball=girzohal-$version-linux-x86_64.tar.gz
from=$GIRZOHAL_FROM
case $(uname -sm) in
    'Linux x86_64') ;;
    *) echo "girzohal: there is a release for Linux on x86-64 only" >&2; exit 1 ;;
esac
if [ -z "$from" ]; then
    url=$GIRZOHAL_URL
    if [ -z "$url" ] && [ -n "$GITHUB_ACTION_REPOSITORY" ]; then
        url=${GITHUB_SERVER_URL:-https://github.com}/$GITHUB_ACTION_REPOSITORY/releases/download/v$version
    fi
    [ -n "$url" ] || { echo "girzohal: set GIRZOHAL_URL to the folder of the release, or GIRZOHAL_FROM to its tarball" >&2; exit 1; }
    room=$(mktemp -d)
    trap 'rm -rf "$room"' EXIT
    for file in "$tarball" SHA256SUMS; do
        curl -fsSL --retry 3 -o "$room/$file" "$url/$file"
    done
    from=$room/$tarball
fi
sh "$here/../install.sh" --from "$from" "$prefix"
[ -z "$GITHUB_PATH" ] || echo "$prefix/bin" >>"$GITHUB_PATH"
[ -z "$GITHUB_OUTPUT" ] || echo "version=$("$prefix/bin/girzohal" --version)" >>"$GITHUB_OUTPUT"
