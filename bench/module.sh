#!/usr/bin/env bash
# The planner's measuring program as the module that the kit makes of it, before the compiler has worked on it: caught on its way to the kit's compiler,
# by a folder that is the kit but for a compiler that keeps the module it is handed. The program is proved and built on the way.
# usage: bench/module.sh FILE
set -euo pipefail
root=$(cd "$(dirname "${BASH_SOURCE[0]}")/.." && pwd)
home=$(dirname "$(rt doc)")
catch=$(mktemp -d)
trap 'rm -rf "$catch"' EXIT

mkdir -p "$catch/kit/bin" "$catch/kit/toolchain/bin"
for part in "$home"/*; do case $part in */bin | */toolchain) ;; *) ln -s "$part" "$catch/kit/" ;; esac; done
ln -s "$home/toolchain/lib" "$catch/kit/toolchain/lib"
for tool in "$home"/bin/* "$home"/toolchain/bin/*; do ln -s "$tool" "$catch/kit/${tool#"$home"/}"; done
# `rt` finds its kit by the place where it lies.
for script in rt rtlib.py; do cp --remove-destination "$home/bin/$script" "$catch/kit/bin/$script"; done
rm "$catch/kit/toolchain/bin/clang"
cat > "$catch/kit/toolchain/bin/clang" << END
#!/bin/sh
for word in "\$@"; do case \$word in *.bc) [ -e "$catch/module.bc" ] || cp "\$word" "$catch/module.bc" ;; esac; done
exec "$home/toolchain/bin/clang" "\$@"
END
chmod +x "$catch/kit/toolchain/bin/clang"

# With its stamp gone the program is compiled anew.
rm -f "$root/crates/measure/out/measure.stamp"
(cd "$root/crates/measure" && "$catch/kit/bin/rt" run < /dev/null) > "$catch/log" 2>&1 || cat "$catch/log" >&2
cp "$catch/module.bc" "$1"
