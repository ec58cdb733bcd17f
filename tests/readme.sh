#!/bin/sh
# Holds the caller that README shows to the text of the program `trial`, which the gate proves and runs.
set -u
root=$(cd "$(dirname "$0")/.." && pwd)
own=$(mktemp)
shown=$(mktemp)
trap 'rm -f "$own" "$shown"' EXIT
awk '/^fn try_place/, /^}/' "$root/crates/trial/src/main.rt" > "$own"
awk '/^fn try_place/, /^}/' "$root/README.md" > "$shown"
if [ -s "$own" ] && diff "$own" "$shown"; then
    echo '1 passed, 0 failed'
else
    echo "README's caller is not that of crates/trial"
    echo '0 passed, 1 failed'
    exit 1
fi
