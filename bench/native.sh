#!/usr/bin/env bash
# Times the planner against the plain version natively: made for Arm machines, where the programs of the older kit ran under an emulator, which carries
# out copied and cleared blocks byte by byte. The planner is built here from the module that the kit makes of its code (`module.sh`), compiled for this machine by
# the same compiler with the same switches.
# usage: bench/native.sh [milliseconds a measurement]
set -euo pipefail
root=$(cd "$(dirname "${BASH_SOURCE[0]}")/.." && pwd)
cd "$root"
machine=$(uname -m)
home=$(dirname "$(rt doc)")
clang=$home/toolchain/bin/clang
out=$root/target/bench
mkdir -p "$out"
bench/module.sh "$out/module.bc"
switches=(--target="$machine-unknown-linux-gnu" --no-default-config -no-canonical-prefixes -fintegrated-cc1 -fPIE -O3 -w)
"$clang" "${switches[@]}" -mllvm -trap-unreachable -mllvm -no-trap-after-noreturn -c -x ir "$out/module.bc" -o "$out/ours.o"
"$clang" "${switches[@]}" -nostdinc -c bench/plain.c -o "$out/plain.o"
cc -o "$out/ours" "$out/ours.o" "$home/c/libos_c.a" "$home/c/liblibc_c.a"
cc -o "$out/plain" "$out/plain.o"
(cd tests/second && cargo build --release --offline --quiet)
tests/second/target/release/ratios "$out/plain" "$out/ours" ${1:-}
