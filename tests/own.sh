#!/bin/sh
# Builds the second program and tries it on itself: 01's examples, all choices of small fleets,
# the comparison with itself, with the plain C version, and with wrong variants that it must tell.
# usage: tests/own.sh [seed] [folder of the plain version]
set -u
here=$(cd "$(dirname "$0")" && pwd)
seed=${1:-1}
bench=${2:-$here/../bench}
bin=$here/second/target/release
work=$(mktemp -d)
trap 'rm -rf "$work"' EXIT
passed=0
failed=0

# name, wanted exit status, command
try() {
    name=$1
    wanted=$2
    shift 2
    "$@" > "$work/out" 2>&1
    got=$?
    if [ "$got" -eq "$wanted" ]; then
        passed=$((passed + 1))
        echo "ok      $name: $(grep -v '^$' "$work/out" | tail -n 1)"
    else
        failed=$((failed + 1))
        echo "FAILED  $name: status $got"
        tail -n 20 "$work/out"
    fi
}

# name, what the last line must show, command that must fail: a run that fails for want of
# coverage, or because it cannot start, has told nothing.
told() {
    name=$1
    shown=$2
    shift 2
    "$@" > "$work/out" 2>&1
    got=$?
    if [ "$got" -eq 1 ] && tail -n 1 "$work/out" | grep -q -- "$shown"; then
        passed=$((passed + 1))
        echo "ok      $name: $(tail -n 1 "$work/out")"
    else
        failed=$((failed + 1))
        echo "FAILED  $name: status $got"
        tail -n 5 "$work/out"
    fi
}

try 'build' 0 sh -c "cd '$here/second' && cargo build --release --offline"
try 'unit tests' 0 sh -c "cd '$here/second' && cargo test --release --offline"
try "01's examples" 0 "$bin/second" self
try 'all choices of small fleets' 0 "$bin/second" check --seed "$seed"
try 'probe with itself' 0 "$bin/second" compare --kind probe --seed "$seed" -- "$bin/second" probe
try 'listing with itself' 0 "$bin/second" compare --kind listing --seed "$seed" -- "$bin/second" listing
if ${CC:-cc} -O2 -o "$work/plain_probe" "$bench/plain_probe.c" \
    && ${CC:-cc} -O2 -o "$work/plain" "$bench/plain.c"; then
    printf '#!/bin/sh\n(head -c 16 /dev/zero; cat) | "%s/plain"\n' "$work" > "$work/plain_round"
    chmod +x "$work/plain_round"
    try 'plain C: probe' 0 "$bin/second" compare --kind probe --seed "$seed" -- "$work/plain_probe"
    try 'plain C: listing' 0 "$bin/second" compare --kind listing --seed "$seed" -- "$work/plain_round"
else
    echo 'FAILED  plain C does not compile'
    failed=$((failed + 1))
fi
for slip in $(seq 1 81); do
    told "wrong variant $slip is told" ' [1-9][0-9]* differences$' \
        "$bin/second" compare --kind probe --seed "$seed" --stop 1 -- env SECOND_BREAK="$slip" \
        "$bin/second" probe
done
for slip in 1 2 3 4 5 6 9 10 11 12 13 14 26 28 29 30 31 32 51 53 57 58 59 $(seq 66 81); do
    told "wrong variant $slip breaks a promise" '^again: ' env SECOND_BREAK="$slip" "$bin/second" check --seed "$seed"
done
echo "$passed passed, $failed failed"
[ "$failed" -eq 0 ]
