#!/usr/bin/env bash
# sides.sh ONE TWO: two static libraries side by side in one run, also one from before the wider labels and a later one. For each line of the table the pairs walked (calls of plan::below) and the instructions by
# callgrind, and the least time of 100 rounds in which the two take turns. One line is many different calls, or one of the nine models below with its backups.
set -euo pipefail
here=$(cd "$(dirname "$0")" && pwd)
room=$(mktemp -d)
trap 'rm -rf "$room"' EXIT

# the symbols of the first get one_ before them, those of the second two_
prefixed() { # LIBRARY PREFIX
    nm -g --defined-only "$1" | awk -v p="$2_" 'NF == 3 { print $3, p $3 }' >"$room/$2.names"
    objcopy --redefine-syms="$room/$2.names" "$1" "$room/lib$2.a"
}
prefixed "$1" one
prefixed "$2" two
cc -O2 -Wall -Wextra -c "$here/count.c" -o "$room/count.o"
ar rcs "$room/libcount.a" "$room/count.o"
rustc --edition 2021 -A dead_code -C opt-level=3 -o "$room/sides" "$here/sides.rs" -L "$room" -l static=one -l static=two -l static=count

# but for its last line, a backup that met 8 before labels had room for 64 variables
head -n -1 "$here"/../host/corpus/cut-after-each-of-five-backups.txt >"$room/cut-after-each-of-five-backups.txt"
models=("$here"/../examples/{sample,inventory,inventory-named,liftparts,logistics}.txt "$room"/cut-after-each-of-five-backups.txt
    "$here"/../host/corpus/{meaning-best-action,meaning-two-vans,space-of-a-regression-at-2048}.txt)

# the C library clears memory byte by byte for callgrind, unless it is told not to use the processor's own instruction for that
cd "$room"
GLIBC_TUNABLES=glibc.cpu.x86_rep_stosb_threshold=1000000000 \
    valgrind --tool=callgrind --instr-atstart=no --compress-strings=no --callgrind-out-file=counted ./sides count "${models[@]}" >log 2>&1 || { cat log; exit 1; }
for f in counted.*; do
    awk '/^desc: Trigger: Client Request: / { name = $5 " " $6 } /^cfn=/ { walks = /^cfn=plan::below/ } /^calls=/ && walks { sub(/calls=/, ""); pairs += $1 }
        /^totals: / { n = $2 } END { if (name != "") print name, n, pairs + 0 }' "$f"
done >counts
uptime
./sides time counts "${models[@]}"
