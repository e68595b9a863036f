#!/usr/bin/env bash
# All host tests. With a program's path, the stored and random texts go through that program too; where the static library is there, its calls are tested. Random
# tests run for SECONDS each. The last line is the verdict. With --first only what needs neither program nor library, with --rest all else: the gate does the first
# part beside the proofs.
#     host/test.sh [--first | --rest] [PROGRAM] [SECONDS]
set -uo pipefail
part=all
case ${1:-} in --first | --rest) part=${1#--}; shift ;; esac
program=${1:-}
seconds=${2:-20}
if [ -n "$program" ]; then program=$(realpath -m "$program"); fi
if [ -n "${YINDOLVE_LIBRARY:-}" ]; then YINDOLVE_LIBRARY=$(realpath "$YINDOLVE_LIBRARY"); export YINDOLVE_LIBRARY; fi
cd "$(dirname "$0")" || exit 2
library=${YINDOLVE_LIBRARY:-../crates/c_library/out/libc_library.a}

passed=0
failed=0
step() {
    local name="$*"
    if "$@"; then passed=$((passed + 1)); echo "passed: ${name#quiet }"; else failed=$((failed + 1)); echo "failed: ${name#quiet }"; fi
}

# quiet COMMAND..: shows what the command prints only where it fails.
quiet() {
    local printed
    printed=$("$@" 2>&1) || { echo "$printed"; return 1; }
}

# prints LINES COMMAND..: whether the command prints these lines.
prints() {
    local lines=$1 printed
    shift
    printed=$("$@") || return 1
    if [ "$printed" != "$lines" ]; then echo "$* prints: $printed"; return 1; fi
}

# The compilers that the C programs are built with: C99, C++ and sanitizers; the last two only where there are such.
mkdir -p target/c
compilers=("cc -std=c99")
if command -v c++ >/dev/null; then compilers+=("c++ -x c++ -std=c++11"); fi
sanitizers="cc -std=c99 -g -fsanitize=address,undefined -fno-sanitize-recover=all"
if echo 'int main(void) { return 0; }' | $sanitizers -x c -o target/c/sanitized - 2>target/c/sanitizers.log && target/c/sanitized; then
    compilers+=("$sanitizers")
else
    echo "the C compiler has no sanitizers: they are left out"
fi

# build COMPILER SOURCE NAME: a C program over the library, as target/c/NAME.
build() {
    # the language of the source is not that of the library
    $1 -Wall -Wextra -Wpedantic -Werror -I../include -o "target/c/$3" "$2" -x none "$library"
}

# What the library asks for from outside is memcpy and memset: who links it without a C library gives these two.
library_asks() {
    local asked
    asked=$(nm -P "$library" | awk '$2 == "U" { asked[$1] } $2 ~ /^[A-TV-Z]$/ { given[$1] } END { for (name in asked) if (!(name in given)) print name }' | LC_ALL=C sort)
    if [ "$asked" != $'memcpy\nmemset' ]; then echo "the library asks from outside for: $asked"; return 1; fi
}

c_value() {
    build "$1" ../examples/value.c value && prints 10 target/c/value
}

# a session by lines that is closed at the end answers the stored texts as the program does
c_session() {
    local text
    build "$1" ../examples/session.c session || return 1
    for text in ../examples/*.txt corpus/*.txt; do
        target/c/session <"$text" | cmp - "${text%.txt}.out" || return 1
    done
}

c_checks() {
    build "$1" c/checks.c checks && prints "" target/c/checks
}

# the model of an example to the planner's part, a state to the desk's, then a file that is cut off
c_save() {
    build "$1" ../examples/save.c save || return 1
    sed '/(start)/q' ../examples/liftparts.txt >target/c/model
    printf '(objects 3)\n(true wanted 0)\n(true aboard 0 2)\n(true here 2)\n' >target/c/state
    rm -f target/c/saved
    prints "1 step, 66 rows, 19 after cuts" target/c/save plan target/c/saved <target/c/model || return 1
    prints "108 / 16 = 6.75" target/c/save value target/c/saved <target/c/state || return 1
    head -c 1000 target/c/saved >target/c/cut_off
    ! target/c/save value target/c/cut_off <target/c/state 2>target/c/said && grep -q 'is no saved session' target/c/said
}

# sessions whose words were damaged at random
c_damage() {
    build "$1" c/damage.c damage && quiet target/c/damage "$((RANDOM + 1))" "$2"
}

rust_example() {
    cargo run --quiet --release --offline -p yindolve --example "$1"
}

rust_add_apart() {
    prints $'apart: 6 rows, 7 pairs, value 20\nshared: 6 rows, 7 pairs, value 10' rust_example add_apart
}

rust_keep_loaded() {
    prints $'1 step: 6 rows, 5 after 1 cut\nstock at []: 15/4 = 3.75\nstock at [1]: 15/4 = 3.75\nstock at [0]: 15 = 15.00' rust_example keep_loaded
}

rust_save() {
    prints $'2 steps: 243/64 = 3.80\nnot a saved session: its sum is wrong, so that bytes were lost or changed' rust_example save
}

# The front end's answers to random texts, which are the program's; that a line was refused, status 1, is no failure here.
desk_run() {
    printf '#!/bin/sh\n"%s" run 2>/dev/null || [ $? -eq 1 ]\n' "$PWD/target/release/yindolve-desk" >target/desk_run
    chmod +x target/desk_run
    quiet target/release/tests program "$PWD/target/desk_run" seconds "$1"
}

# Every refusal of random texts is explained, for so many seconds; status 2 would say that library and reference disagree.
desk_explain() {
    local seed=$RANDOM end=$((SECONDS + $1)) first
    first=$seed
    while [ "$SECONDS" -lt "$end" ]; do
        target/release/tests text "$seed" | timeout 60 target/release/yindolve-desk explain - >target/explained 2>&1
        if [ $? -gt 1 ]; then echo "explain fails for the text of seed $seed:"; cat target/explained; return 1; fi
        seed=$((seed + 1))
    done
    echo "the texts of seeds $first to $((seed - 1)) are explained"
}

# What install.sh installs works where it is installed.
installed() {
    local prefix=$PWD/target/prefix flags
    rm -rf "$prefix"
    quiet ../install.sh "$prefix" || return 1
    if command -v pkg-config >/dev/null; then
        flags=$(PKG_CONFIG_PATH=$prefix/lib/pkgconfig pkg-config --cflags --libs yindolve) || return 1
    else
        flags="-I$prefix/include -L$prefix/lib -lyindolve"
    fi
    # shellcheck disable=SC2086
    cc -o target/c/value ../examples/value.c $flags && prints 10 target/c/value || return 1
    "$prefix/bin/yindolve" <../examples/sample.txt | cmp - ../examples/sample.out
}

# README's five lines, but for the two that install, print what README says.
readme() {
    local block='/^## The wholesaler/ { on = 1 } on && /^```/ { n++; next } on && n == wanted' lines said
    lines=$(awk -v wanted=1 "$block" ../README.md | grep -v '^./install.sh\|^export')
    said=$(awk -v wanted=3 "$block" ../README.md | grep -v '^\.\.$')
    rm -rf target/readme && mkdir target/readme && cp -r ../examples target/readme/examples
    (cd target/readme && PATH=$PWD/../prefix/bin:$PATH bash -ec "$lines" 2>../readme.log | grep '^[0-9a-z]*  ') >target/readme/said
    prints "$said" cat target/readme/said
}

# What docs/REFERENCE.md says of the program: status 0 for refusals, for a full disk, for a directory and where the pipe is closed.
program_at_its_ends() {
    local status
    printf 'x\n' | "$program" >target/said || return 1
    prints $'(refused 1 1)\n(refused 5 0)' cat target/said || return 1
    if [ -w /dev/full ]; then "$program" <../examples/sample.txt >/dev/full || return 1; fi
    "$program" <. >target/said 2>target/told && prints "" cat target/said && prints "yindolve: the input cannot be read" cat target/told || return 1
    printf '\n\n' | "$program" >target/said && prints "" cat target/said || return 1
    yes '(show)' | head -n 100000 | "$program" | head -n 1 >target/said
    status=("${PIPESTATUS[@]}")
    [ "${status[2]}" -eq 0 ] || { echo "status ${status[2]} at a closed pipe"; return 1; }
}

verdict() {
    echo "$passed passed, $failed failed"
    [ "$failed" -eq 0 ]
    exit
}

if [ "$part" != rest ]; then
    step cargo fmt --check
    step quiet cargo test --quiet --release --offline
    step quiet cargo build --quiet --release --offline
    step target/release/believed --check
    step target/release/tests self seconds "$seconds"
    step target/release/tests stored corpus
    step target/release/tests stored ../examples
fi
if [ "$part" = first ]; then verdict; fi

if [ -n "$program" ] && [ -x "$program" ]; then
    step target/release/tests stored corpus "$program"
    step target/release/tests stored corpus/cut-long "$program"
    step target/release/tests stored corpus/did-wide "$program"
    step target/release/tests stored ../examples "$program"
    step target/release/tests program "$program" seconds "$seconds"
    step target/release/tests bellman "$program" seconds "$((seconds / 2))"
    step target/release/tests round "$program" seconds "$((seconds / 2))"
    step program_at_its_ends
else
    echo "no program${program:+ at $program}: its texts are left out"
fi

# The caller may build the library meanwhile: then this file has the status of its build once that has ended.
library_built() {
    until [ -s "$YINDOLVE_LIBRARY_STATUS" ]; do sleep 1; done
    [ "$(cat "$YINDOLVE_LIBRARY_STATUS")" = 0 ]
}
if [ -n "${YINDOLVE_LIBRARY_STATUS:-}" ]; then step library_built; fi

if [ -f "$library" ]; then
    step quiet cargo test --quiet --release --offline -p yindolve
    step quiet cargo build --quiet --release --offline -p tests --features library
    step target/release/tests library seconds "$seconds"
    if command -v nm >/dev/null; then step library_asks; else echo "no nm: what the library asks for from outside is left out"; fi
    for compiler in "${compilers[@]}"; do
        step c_value "$compiler"
        step c_session "$compiler"
        step c_save "$compiler"
        step c_checks "$compiler"
        step c_damage "$compiler" "$((seconds / 8 + 1))"
    done
    step rust_add_apart
    step rust_keep_loaded
    step rust_save
    step quiet cargo build --quiet --release --offline -p yindolve-desk
    step quiet cargo test --quiet --release --offline -p yindolve-desk
    step desk_run "$((seconds / 4 + 1))"
    step desk_explain "$((seconds / 4 + 1))"
    if ! command -v chromium chromium-browser google-chrome >/dev/null; then echo "no Chromium is installed: that a browser shows a report is left out"; fi
else
    echo "no static library at $library (rt lib in crates/c_library builds it): its tests are left out"
fi

if [ -f ../crates/yindolve/out/yindolve ] && [ -f ../crates/c_library/out/libc_library.a ]; then
    step installed
    step readme
fi
verdict
