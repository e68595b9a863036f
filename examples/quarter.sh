#!/usr/bin/env bash
# A wholesaler's quarter: the rules of liftparts.txt in, a value diagram out, and then a number for each of sixty branches.
#     bash examples/quarter.sh [YINDOLVE-DESK] [FOLDER]
# The branches are generated, always the same: the first ten are kiosks with two parts and one van, the others have 5 to 24 parts and 1 to 4 vans. The states
# and what plan saves go to FOLDER, or to one that is removed at the end. quarter.out is what it prints.
set -euo pipefail
desk=$(realpath "$(command -v "${1:-yindolve-desk}")")
here=$(cd "$(dirname "$0")" && pwd)
folder=${2:-}
if [ -z "$folder" ]; then
    folder=$(mktemp -d)
    trap 'rm -rf "$folder"' EXIT
fi
mkdir -p "$folder"
cd "$folder"

# random BOUND: the next number below BOUND, to $drawn.
seed=2026
random() {
    seed=$(((seed * 1103515245 + 12345) % 2147483648))
    drawn=$((seed / 65536 % $1))
}

# branch PARTS VANS: a state; objects 0 to PARTS - 1 are parts, the vans follow.
branch() {
    local parts=$1 vans=$2 part van
    echo "(objects $((parts + vans)))"
    for ((part = 0; part < parts; part++)); do
        random 2
        if [ "$drawn" -eq 0 ]; then echo "(true wanted $part)"; fi
        random 16
        if [ "$drawn" -eq 0 ]; then echo "(true shelf $part)"; fi
        random $((vans + 2))
        if [ "$drawn" -lt "$vans" ]; then echo "(true aboard $part $((parts + drawn)))"; fi
    done
    for ((van = parts; van < parts + vans; van++)); do
        random 3
        if [ "$drawn" -eq 0 ]; then echo "(true here $van)"; fi
    done
}

# the sixty states
for number in {01..60}; do
    parts=2
    vans=1
    if [ "${number#0}" -gt 10 ]; then
        random 20
        parts=$((5 + drawn))
        random 4
        vans=$((1 + drawn))
    fi
    branch "$parts" "$vans" >"branch-$number.txt"
done

echo "The quarter, one step ahead, for all sixty branches:"
"$desk" plan "$here/liftparts.txt" --steps 1 -o quarter.plan
"$desk" value quarter.plan branch-*.txt
echo
echo "Two steps ahead, for the ten kiosks:"
"$desk" plan quarter.plan --steps 1 -o kiosks.plan
"$desk" value kiosks.plan branch-0?.txt branch-10.txt
