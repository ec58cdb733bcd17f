#!/bin/sh
# Compares the planner with the second program: `probe` and `round`, and the stored listings of
# the sample sheets. Each of the two may be a command with arguments.
# usage: tests/against.sh "probe command" "round command" [seed] [probe cases] [listing cases]
set -u
here=$(cd "$(dirname "$0")" && pwd)
bin=$here/second/target/release
probe=${1:?the command of probe}
round=${2:?the command of round}
seed=${3:-1}
passed=0
failed=0

note() {
    if [ "$1" -eq 0 ]; then passed=$((passed + 1)); else failed=$((failed + 1)); fi
}

(cd "$here/second" && cargo build --release --offline --quiet) || exit 1
# The commands are split at spaces on purpose.
"$bin/second" compare --kind probe --seed "$seed" --cases "${4:-20000}" -- $probe
note $?
"$bin/second" compare --kind listing --seed "$seed" --cases "${5:-1280}" -- $round
note $?
for name in paper ward full morning cages theatre; do
    "$bin/sheet_text" bytes < "$here/../samples/$name.txt" | $round | cmp - "$here/../samples/$name.listing"
    got=$?
    [ "$got" -eq 0 ] || echo "sample $name: not the stored listing"
    note $got
done
echo "$passed passed, $failed failed"
[ "$failed" -eq 0 ]
