#!/usr/bin/env bash
# library.sh TREE OUT: a static library of the calls that sides.rs and main.rs measure, compiled from the sources of TREE as `rt lib` does it but with NO proof. To measure
# a tree that is not proved here, and for nothing else. It needs the older kit (kit 5), by its rattle-cases, and sources as that kit spells them.
set -euo pipefail
here=$(cd "$(dirname "$0")" && pwd)
tree=$(realpath "$1")
out=$(realpath -m "$2")
home=$(cd "$(dirname "$(realpath "$(command -v rt)")")/.." && pwd)
kit=$home/on/$(uname -m)
[ -x "$kit/bin/rattle-cases" ] || { echo 'library.sh: this kit has no rattle-cases: the older kit (kit 5) is needed' >&2; exit 1; }
room=$(mktemp -d)
trap 'rm -rf "$room"' EXIT

# every crate that c_library reaches, as source
declare -A seen=()
libs=(--lib "std=$home/libs/std/src/lib.rt")
reach() {
    local d
    for d in $(sed -n "s/^$1: *//p" "$tree/crates.txt"); do
        [ -z "${seen[$d]:-}" ] || continue
        seen[$d]=1
        libs+=(--lib "$d=$tree/crates/$d/src/lib.rt")
        reach "$d"
    done
}
reach c_library

# the kit compiles nothing unproved but programs, to try them: so c_library gets a main, and a compiler that only keeps the module
mkdir -p "$room/src" "$room/kit/bin"
{ cat "$tree/crates/c_library/src/lib.rt"; echo 'fn main() {}'; } >"$room/src/main.rt"
ln -s "$kit/toolchain/lib" "$room/kit/lib"
ln -s "$kit/toolchain/bin/ld.lld" "$kit/toolchain/bin/llvm-ar" "$room/kit/bin/"
printf '#!/bin/sh\ncp module.bc "%s" && exit 1\n' "$room" >"$room/kit/bin/clang"
chmod +x "$room/kit/bin/clang"
"$kit/bin/rattle-cases" --toolchain "$room/kit" "$room/src/main.rt" --crate-name c_library "${libs[@]}" >"$room/log" 2>&1 || true
[ -f "$room/module.bc" ] || { cat "$room/log"; exit 1; }

# the module with the calls as its doors in place of main
clang=$kit/toolchain/bin/clang
"$clang" -S -emit-llvm -Xclang -disable-llvm-passes -Wno-override-module -x ir "$room/module.bc" -o - \
    | sed -e '/^define i32 @main(/,/^}/d' -e '/@"c_library::yindolve_/s/^define internal noundef/define/' \
        -e 's/@"c_library::\(yindolve_[a-z_]*\)"/@compiled_\1/' >"$room/doors.ll"
"$clang" --target=x86_64-unknown-linux-gnu -march=x86-64 -ffunction-sections -fdata-sections -mllvm -trap-unreachable -mllvm -no-trap-after-noreturn \
    --no-default-config -c -x ir "$room/doors.ll" -o "$room/doors.o" -fPIE -O3 -Xclang -fmerge-functions -mllvm -mergefunc-use-aliases
cc -O2 -Wall -Wextra -I"$tree/include" -c "$here/library.c" -o "$room/library.o"
rm -f "$out"
ar rcs "$out" "$room/doors.o" "$room/library.o"
