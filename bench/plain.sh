#!/usr/bin/env bash
# plain.sh: the engine's own sources as plain Rust, on standard output: a module for each crate, without what rustc does not know (ghost uses, contracts and Rattle's own attributes). So the
# Rust that the engine is compared with has the same algorithm, also after a change. rustc's indices are checked, since it has no proof that they are within range.
set -euo pipefail
cd "$(dirname "$0")/.."

crates=$(sed -n 's/^\([a-z][a-z_]*\)\( staticlib\)\{0,1\}:.*/\1/p' crates.txt | grep -vx call_tests)
echo '#![allow(dead_code, unused_imports, unused_must_use)]'
cat bench/plain.rs
for crate in $crates; do
    source=crates/$crate/src/lib.rt
    [ -f "$source" ] || source=crates/$crate/src/main.rt
    echo "pub mod $crate {"
    # the other crates by their names
    echo "use super::{$(grep -vx "$crate" <<<"$crates" | paste -sd,),HostRuntime};"
    awk '
        function braces(line) { return gsub(/[{]/, "", line) - gsub(/[}]/, "", line) }
        /^ghost use / { ghost = 1 }
        ghost { ghost = !/;$/; next }
        /^ *(requires|ensures) / { contract = 1; open = 0 }
        contract { open += braces($0); contract = open > 0; next }
        /^#!?\[(unsafe\(no_mangle\)|tactic\(.*\)|cycle\(.*\))\]/ { next }
        { sub(/^pub extern "C" fn/, "pub fn"); sub(/^fn main\(/, "pub fn main("); print }' "$source"
    echo '}'
done
