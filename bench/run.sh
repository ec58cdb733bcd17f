#!/usr/bin/env bash
# Times the planner against the plain version: both built for x86-64 by the kit's compiler, and run the same way.
# usage: bench/run.sh [milliseconds a measurement]
set -euo pipefail
root=$(cd "$(dirname "${BASH_SOURCE[0]}")/.." && pwd)
cd "$root"
home=$(dirname "$(rt doc)")
tools=$home/toolchain
mkdir -p target/bench
# x86-64-v2 is what the kit builds the planner for.
"$tools/bin/clang" --target=x86_64-unknown-linux-gnu -march=x86-64-v2 --no-default-config -nostdinc -no-canonical-prefixes -fintegrated-cc1 \
    -ffunction-sections -fPIE -O3 -c bench/plain.c -o target/bench/plain.o
"$home/bin/rattle-link" --target x86_64-unknown-linux-gnu --toolchain "$tools" -o target/bench/plain target/bench/plain.o
./run measure < /dev/null > target/bench/empty
(cd tests/second && cargo build --release --offline --quiet)
tests/second/target/release/ratios target/bench/plain crates/measure/out/measure ${1:-}
