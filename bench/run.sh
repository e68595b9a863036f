#!/usr/bin/env bash
# The benchmark, one command: every table of docs/PERFORMANCE.md, as Markdown. Builds the proved library and program, the same sources as plain Rust (plain.sh) and the independent
# implementation (host/reference), compares what they answer, and takes times: calls (main.rs), and, or beside BuDDy (buddy.c), texts (texts.sh).
set -euo pipefail
cd "$(dirname "$0")/.."
room=target/bench
mkdir -p $room
log=$PWD/$room/log

# proved COMMAND..: silent, unless it fails
proved() { "$@" >"$log" 2>&1 || { tail -n 20 "$log"; exit 1; }; }
built() { (cd "crates/$1" && proved rt "$2" </dev/null); }
built c_library lib
built yindolve run
archive=crates/c_library/out/libc_library.a

SECONDS=0
library=(-L crates/c_library/out -l static=c_library)
rust() { rustc --edition 2021 -C opt-level=3 "$@"; }
bash bench/plain.sh >$room/plain.rs
rust -A warnings --crate-type rlib --crate-name plain -o $room/libplain.rlib $room/plain.rs &
echo 'fn main() { yindolve::main(HostRuntime) }' | cat $room/plain.rs - >$room/program.rs
rust -A warnings -o $room/program $room/program.rs
wait $!
rust --crate-type rlib --crate-name reference -o $room/libreference.rlib host/reference/src/lib.rs
rust -o $room/reference host/reference/src/main.rs --extern reference=$room/libreference.rlib
rust -A dead_code -o $room/main bench/main.rs "${library[@]}" --extern plain=$room/libplain.rlib --extern reference=$room/libreference.rlib
cc -Wall -Wextra -Iinclude -o $room/calls bench/calls.c $archive
$room/calls >$room/log

kit=$(dirname "$(realpath "$(command -v rt)")")/..
echo "Processor: $(sed -n 's/^model name[^:]*: //p' /proc/cpuinfo | head -n 1), $(nproc) cores, load $(cut -d ' ' -f 1 /proc/loadavg)."
echo "Compilers: the library and the program by Rattle with $("$kit/toolchain/bin/clang" --version | head -n 1), Rust by $(rustc --version), C by $(cc --version | head -n 1)."
mapfile -t models < <(bash bench/models.sh)
$room/main "${models[@]}"
if echo '#include <bdd.h>' | cc -E - >$room/log 2>&1; then
    cc -O2 -Wall -Wextra -Iinclude -o $room/buddy bench/buddy.c $archive -lbdd
    $room/buddy
else
    printf '\nNo BuDDy (libbdd-dev) here: the comparison with it is left out.\n'
fi
bash bench/texts.sh crates/yindolve/out/yindolve $room/program $room/reference
printf '\nTaken in %d s, proofs apart.\n' $SECONDS
