#!/bin/sh
# Counts the words that one opening builds from bytes, from runs under valgrind: the calls of the function that builds
# one, in a run that opens twice less those in a run that opens once. Built without optimisation, so that every call is
# one. The days keep the triangle rule, so no way of asking it ends early.
# usage: bench/reads.sh
set -eu
root=$(cd "$(dirname "$0")/.." && pwd)
bin=$root/tests/second/target/release
home=$(dirname "$(rt doc)")
work=$(mktemp -d)
trap 'rm -rf "$work"' EXIT
(cd "$root/tests/second" && cargo build --release --offline --quiet)
for name in straight plain; do ${CC:-cc} -O0 -w -o "$work/$name" "$root/bench/$name.c"; done
"$root/bench/module.sh" "$work/planner.bc"
"$home/toolchain/bin/clang" --target=x86_64-unknown-linux-gnu --no-default-config -no-canonical-prefixes -fintegrated-cc1 -fPIE -O0 -w \
    -mllvm -trap-unreachable -mllvm -no-trap-after-noreturn -c -x ir "$work/planner.bc" -o "$work/planner.o"
"$home/bin/rattle-link" --target x86_64-unknown-linux-gnu --toolchain "$home/toolchain" -o "$work/planner" "$work/planner.o" \
    "$home/c/libos_c.a" "$home/c/liblibc_c.a" > "$work/out"

# Calls of a function in a run that opens a day so many times: program, function, day, times (one digit)
calls() {
    { printf "\\1\\0\\0\\0\\0\\0\\0\\0\\$4\\0\\0\\0\\0\\0\\0\\0"; cat "$3"; } |
        valgrind -q --tool=callgrind --compress-strings=no --callgrind-out-file="$work/calls" "$1" > "$work/out"
    grep -q '^result ' "$work/out"
    awk -v name="cfn=$2" '/^cfn=/ { on = $0 == name } /^calls=/ && on { sum += substr($1, 7) } END { print sum + 0 }' "$work/calls"
}

# program, function that builds a word, day
count() {
    once=$(calls "$1" "$2" "$3" 1)
    echo $(($(calls "$1" "$2" "$3" 2) - once))
}

echo 'nodes  straightforward  plain  planner'
for n in 8 16 32 64; do
    "$bin/second" sample --nodes $n --vans 1 --seed 1 2> /dev/null | "$bin/sheet_text" bytes > "$work/day"
    straight=$(count "$work/straight" word "$work/day")
    plain=$(count "$work/plain" word "$work/day")
    planner=$(count "$work/planner" words::word "$work/day")
    printf '%5d  %15d  %5d  %7d\n' $n "$straight" "$plain" "$planner"
done
