#!/bin/sh
# Makes the list of what has to be believed anew from the sources, and fails if docs/TRUST.md is another one.
# usage: tests/trust.sh [write]      with 'write' it replaces docs/TRUST.md
set -u
here=$(cd "$(dirname "$0")" && pwd)
root=$here/..
page=$(mktemp)
trap 'rm -f "$page"' EXIT
if ! (cd "$here/trust" && cargo build --release --offline --quiet) \
    || ! "$here/trust/target/release/trust" "$root/crates" "$root/crates.txt" > "$page"; then
    echo '0 passed, 1 failed'
    exit 1
fi
if [ "${1:-}" = write ]; then cp "$page" "$root/docs/TRUST.md"; fi
if diff "$root/docs/TRUST.md" "$page"; then
    echo '1 passed, 0 failed'
else
    echo "docs/TRUST.md is not what the sources say: tests/trust.sh write"
    echo '0 passed, 1 failed'
    exit 1
fi
