#!/usr/bin/env bash
# Installs what is built to PREFIX: the program, the front end, the library with its header and pkg-config file, the manual pages and the documents.
#     ./install.sh PREFIX
# What is missing in the crates' out/ is built first, by rt, which proves all that it rests on: where nothing is kept of that, it takes an hour or so. The front end needs cargo and is left out
# without it.
# DESTDIR, if it is set, stands before PREFIX where files are written.
set -euo pipefail

fail() {
    echo "install.sh: $1" >&2
    exit "${2:-1}"
}

if [ $# -ne 1 ] || [ "$1" = --help ] || [ -z "$1" ]; then
    echo "use: ./install.sh PREFIX (as /usr/local, or ~/.local)" >&2
    exit 2
fi
case $1 in /*) prefix=${1%/} ;; *) prefix=$PWD/${1%/} ;; esac
to=${DESTDIR:-}$prefix
cd "$(dirname "$0")"
version=$(sed -n 's/^#define YINDOLVE_VERSION "\(.*\)"$/\1/p' include/yindolve.h)

# built CRATE FILE VERB: builds the file in the crate's out/ where it is missing. rt run also runs the program, here on an empty text.
built() {
    local file=crates/$1/out/$2 log=$PWD/target/install.log
    if [ -f "$file" ]; then return; fi
    command -v rt >/dev/null || fail "$file is missing, and there is no rt on the path to build it"
    echo "building $file"
    (cd "crates/$1" && rt "$3") </dev/null >"$log" 2>&1 || { tail -n 20 "$log" >&2; fail "rt $3 in crates/$1 failed"; }
}

# put MODE FILE FOLDER [NAME]
put() {
    mkdir -p "$to/$3"
    install -m "$1" "$2" "$to/$3/${4:-$(basename "$2")}"
    echo "$prefix/$3/${4:-$(basename "$2")}"
}

mkdir -p target
program=crates/yindolve/out/yindolve
library=crates/c_library/out/libc_library.a
built yindolve yindolve run
built c_library libc_library.a lib
mkdir -p "$to" || fail "cannot make the folder $to"

put 755 "$program" bin
put 644 "$library" lib libyindolve.a
put 644 include/yindolve.h include

mkdir -p "$to/lib/pkgconfig"
cat >"$to/lib/pkgconfig/yindolve.pc" <<PC
prefix=$prefix
libdir=\${prefix}/lib
includedir=\${prefix}/include

Name: yindolve
Description: A value engine on first-order decision diagrams in which every function is proved
Version: $version
Cflags: -I\${includedir}
Libs: -L\${libdir} -lyindolve
PC
echo "$prefix/lib/pkgconfig/yindolve.pc"

if [ ! -d host/cli ]; then
    echo "the front end yindolve-desk is left out: there is no host/cli" >&2
elif ! command -v cargo >/dev/null; then
    echo "the front end yindolve-desk is left out: there is no cargo" >&2
else
    (cd host && cargo build --quiet --release --offline -j1 -p yindolve-desk) || fail "the front end could not be built"
    put 755 host/target/release/yindolve-desk bin
fi

for page in man/*.[13] host/cli/*.1 host/cli/man/*.1; do
    if [ -f "$page" ]; then put 644 "$page" "share/man/man${page##*.}"; fi
done
for page in README.md docs/*.md docs/*.svg; do
    put 644 "$page" share/doc/yindolve
done
