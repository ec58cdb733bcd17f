#!/bin/sh
# How sharp is the comparison? Each line below spoils one rule of the plain C version; the
# comparison through `probe` must then show differences. Prints the spoiled rules it misses, and lines that no
# longer match the text of the plain version.
# usage: tests/mutants.sh [cases] [folder of the plain version]
set -u
here=$(cd "$(dirname "$0")" && pwd)
second=$here/second/target/release/second
# A comparison ends at the first difference, so only a rule that is seldom met takes so many.
cases=${1:-40000}
bench=${2:-$here/../bench}
work=$(mktemp -d)
trap 'rm -rf "$work"' EXIT
caught=0
missed=0
while IFS='	' read -r file change; do
    [ -n "$file" ] || continue
    rm -rf "$work/bench"
    cp -r "$bench" "$work/bench"
    sed -i "$change" "$work/bench/plain/$file"
    if cmp -s "$work/bench/plain/$file" "$bench/plain/$file"; then
        echo "changes nothing: $file $change"
        missed=$((missed + 1))
        continue
    fi
    if ! ${CC:-cc} -O2 -w -o "$work/probe" "$work/bench/plain_probe.c" 2> "$work/errors"; then
        echo "does not compile: $file $change"
        missed=$((missed + 1))
        continue
    fi
    # A run that never ends is caught too; a run that only lacks coverage is not.
    timeout 120 "$second" compare --kind probe --cases "$cases" --stop 1 -- "$work/probe" > "$work/out" 2> /dev/null
    if [ $? -eq 124 ] || tail -n 1 "$work/out" | grep -q ' [1-9][0-9]* differences$'; then
        caught=$((caught + 1))
    else
        echo "missed: $file $change"
        missed=$((missed + 1))
    fi
done < "$here/mutants.txt"
echo "mutants: $caught caught, $missed missed"
[ "$missed" -eq 0 ]
