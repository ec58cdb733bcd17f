#!/usr/bin/env bash
# Holds the planner's measuring program to the plain version's answers: every operation, on sheets of one van and of several that open, on
# one that does not, on numbers above 32 bits, and on input that is too short. Times are left out.
# usage: tests/protocol.sh COMMAND [folder of the plain version], the command being the planner's measuring program
set -uo pipefail
here=$(cd "$(dirname "$0")" && pwd)
ours=${1:?the measuring program}
bench=${2:-$here/../bench}
work=$(mktemp -d)
trap 'rm -rf "$work"' EXIT
passed=0
failed=0

# A number as eight bytes, the lowest first.
number() {
    local k v=$1
    for k in 1 2 3 4 5 6 7 8; do
        printf "\\x$(printf %02x $((v & 255)))"
        v=$((v >> 8))
    done
}

# name, operation, count, sheet
try() {
    { number "$2"; number "$3"; cat "$4"; } > "$work/in"
    "$work/plain" < "$work/in" | grep -v '^nanoseconds ' > "$work/wanted"
    $ours < "$work/in" > "$work/got"
    if [ -s "$work/wanted" ] && cmp -s "$work/wanted" "$work/got"; then
        passed=$((passed + 1))
    else
        failed=$((failed + 1))
        echo "FAILED  $1: plain says '$(head -n 1 "$work/wanted")', ours '$(head -n 1 "$work/got")'"
    fi
}

if ! ${CC:-cc} -O2 -o "$work/plain" "$bench/plain.c"; then
    echo '0 passed, 1 failed'
    exit 1
fi
for name in ward paper full morning theatre; do
    "$here/second/target/release/sheet_text" bytes < "$here/../samples/$name.txt" > "$work/$name"
    for operation in 0 1 2 3 4 5 6 7 8 9 10; do
        try "operation $operation on $name" "$operation" 3 "$work/$name"
    done
done
# The last byte is missing: the sheet is refused.
head -c -1 "$work/ward" > "$work/cut"
for operation in 0 1 2 3 4 5 6 7 8 9; do
    try "operation $operation on a refused sheet" "$operation" 2 "$work/cut"
done
try 'an operation above 32 bits' $((4294967296 + 1)) 1 "$work/ward"
try 'no operation of any size' -1 1 "$work/ward"
head -c 15 "$work/ward" > "$work/in"
if [ "$($ours < "$work/in")" = cannot ] && [ "$("$work/plain" < "$work/in")" = cannot ]; then
    passed=$((passed + 1))
else
    failed=$((failed + 1))
    echo 'FAILED  fewer than 16 bytes'
fi
echo "$passed passed, $failed failed"
[ "$failed" -eq 0 ]
