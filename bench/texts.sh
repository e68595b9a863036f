#!/usr/bin/env bash
# texts.sh PROGRAM RUST REFERENCE: processor time of the program on texts, beside its sources compiled by rustc and, for the first table of lines, the independent implementation;
# Markdown tables. Whole processes: the least of 40. A line: the least of five texts with that line many times over, less that of the text before it, by the count.
# bench/process.c takes the times; before, the answers are compared byte by byte.
set -euo pipefail
program=$(realpath "$1")
rust=$(realpath "$2")
reference=$(realpath "$3")
cd "$(dirname "$0")/.."
room=$(mktemp -d)
trap 'rm -rf "$room"' EXIT

model='(constant hub)
(predicate stock 1)
(total 4)
(discount 1 2)
(reward (if (stock hub) 10 0))
(action fill !d)
(variant done 3)
(becomes (stock ?s) (if (= !d ?s) 1 (if (stock ?s) 1 0)))'
open='(constant hub)
(predicate stock 1)
(action fill !d)
(variant done 3)'
state() { # OBJECTS FACTS
    echo "(objects $1)"
    echo '(is hub 0)'
    [ "$2" = 0 ] || seq -f '(true stock %g)' 0 $(($2 - 1))
}

# many COUNT TEXT: a text, so many times
many() { yes "$2" | head -n $(($1 * $(wc -l <<<"$2"))) || true; }

# answered TEXT PROGRAM..: that all programs answer the text alike
answered() {
    local text=$1 first=$2 other
    for other in "${@:3}"; do
        cmp -s <("$first" <"$text") <("$other" <"$text") || { echo "$first and $other differ on $text" >&2; exit 1; }
    done
}

# table TITLE WHAT COLUMN..: a table's head
table() {
    printf '\n### %s\n\n| %s' "$1" "$2"
    printf ' | %s' "${@:3}"
    printf ' |\n|---'
    printf '|%.0s---' "${@:3}"
    echo '|'
}

# row NAME COUNT WITH WITHOUT: a row of the times of one line, in µs, from the least times in ms of all programs
row() {
    awk -v name="$1" -v n="$2" -v with="$3" -v without="$4" 'BEGIN {
        k = split(with, a); split(without, b)
        for (i = 1; i <= k; i++) t[i] = (a[i] - b[i]) * 1000 / n
        printf "| %s | %s | %s | %.2f |", name, shown(t[1]), shown(t[2]), t[1] / t[2]
        for (i = 3; i <= k; i++) printf " %s |", shown(t[i])
        print ""
    }
    function shown(x) { return sprintf(x < 9.95 ? "%.2f" : x < 99.5 ? "%.1f" : "%.0f", x) }'
}

# line NAME COUNT BEFORE LINES: the time of one of the lines, so many times over, after a text that comes before
line() {
    echo "$3" >"$room/without"
    { echo "$3"; many "$2" "$4"; } >"$room/with"
    answered "$room/with" "${programs[@]}"
    row "$1" $(($2 * $(wc -l <<<"$4"))) "$("$room/process" 5 "$room/with" "${programs[@]}")" "$("$room/process" 5 "$room/without" "${programs[@]}")"
}

cc -O2 -Wall -Wextra -o "$room/process" bench/process.c
cc -O2 -Wall -Wextra -o "$room/floor" bench/floor.c

table 'Whole processes' 'Text' 'program, ms' Rust ratio
printf '| none of the engine: a C program that reads sample and writes a line | %s | - | - |\n' "$("$room/process" 100 examples/sample.txt "$room/floor")"
for text in $(bash bench/models.sh); do
    answered "$text" "$program" "$rust" "$reference"
    name=$(basename "$text" .txt)
    "$room/process" 40 "$text" "$program" "$rust" | awk -v name="$name" '{ printf "| %s | %.2f | %.2f | %.2f |\n", name, $1, $2, $1 / $2 }'
done

programs=("$program" "$rust" "$reference")
table 'Lines of the desk and of a model' 'Line' 'program, µs' Rust ratio reference
started=$model$'\n(variant none 1)\n(start)'
line 'desk lines, after one backup: (objects 60), (is ..), (true ..), (value), 1.6 million' 400000 "$started"$'\n(backup)' "$(state 60 1)"$'\n(value)'
line 'state lines: (objects 10), (is ..), eight (true ..)' 40000 "$started" "$(state 10 8)"
related=${started/(predicate stock 1)/(predicate stock 1)$'\n'(predicate near 2)}
facts=$(for a in $(seq 0 14); do seq -f "(true near $a %g)" 0 63; done; seq -f '(true near 15 %g)' 0 39)
line '(true ..) repeated, the last of 10 facts' 200000 "$started"$'\n'"$(state 10 10)" '(true stock 9)'
line '(true ..) repeated, the last of 1,000 facts' 100000 "$related"$'\n'"$(state 64 0)"$'\n'"$facts" '(true near 15 39)'
line "(value) of the sample's diagram after one backup, 60 objects, 1 fact" 100000 "$started"$'\n'"$(state 60 1)"$'\n(backup)' '(value)'
line '(value), the same with 64 objects and 1,000 facts' 10000 "$related"$'\n'"$(state 64 0)"$'\n'"$facts"$'\n(backup)' '(value)'
line '(becomes ..) refused at its head (2)' 100000 "$open" '(becomes (stuck ?s) (if (= !d ?s) 1 (if (stock ?s) 1 0)))'
line '(reward ..) refused at its last name (2)' 100000 "$open" '(reward (if (stock hub) 10 (if (stock hub) 5 (if (stuck hub) 1 0))))'
line '(becomes ..) with a leaf, refused by 7: read and built' 30000 "$open" '(becomes (stock ?s) 2)'
line '(becomes ..) the same with two row steps' 30000 "$open" '(becomes (stock ?s) (if (= !d ?s) 2 (if (stock ?s) 1 0)))'

programs=("$program" "$rust")
table 'Moves, logs, spreads, reductions and forms' 'Line' 'program, µs' Rust ratio
# moves, logs, spreads, reductions and forms (document 02, L9, L10, L11, L13, L2)
parts=$(sed '/(start)/q' examples/liftparts.txt)
cuts=$(many 13 '(cut)')
pair='(predicate near 2)
(predicate stock 1)
(predicate met 0)
(total 4)
(reward (if (met) 12 0))
(action pass !a !c)
(variant done 3)
(becomes (met) (if (met) 1 (if (stock !a) (if (near !a !c) 1 0) 0)))
(variant broken 1)
(start)'
line '(best) of liftparts after one backup and its cuts, 3 objects' 500 "$parts"$'\n(backup)\n'"$cuts"$'\n(objects 3)\n(true wanted 0)\n(true aboard 0 2)' '(best)'
line '(best), 64 objects, two parameters, the last binding alone' 20 "$pair"$'\n(objects 64)\n(true stock 63)\n(true near 63 63)' '(best)'
line '(best), the same with 64 places in stock and 960 near' 20 "$pair"$'\n(objects 64)\n'"$(seq -f '(true stock %g)' 0 63; for a in $(seq 0 14); do seq -f "(true near $a %g)" 0 63; done)" '(best)'
# 60 objects and 300 facts: 240 near, 60 in stock; a log whose lines change a proposition, one place of sixty, or two places of sixty
week='(predicate near 2)
(predicate stock 1)
(predicate met 0)
(total 4)
(reward (if (met) (if (stock ?x) (if (near ?x ?y) 12 8) 4) 0))
(action meet)
(variant done 3)
(becomes (met) (if (met) 0 1))
(variant none 1)
(action shift !a !c)
(variant done 4)
(becomes (stock ?s) (if (= ?s !c) 1 (if (= ?s !a) 0 (if (stock ?s) 1 0))))
(action turn !a)
(variant done 4)
(becomes (near ?x ?y) (if (= ?x !a) (if (near ?y ?x) 1 0) (if (near ?x ?y) 1 0)))
(start)
(objects 60)'
week=$week$'\n'"$(seq -f '(true stock %g)' 0 59; for a in $(seq 0 59); do for d in 1 2 3 4; do echo "(true near $a $(((a + d) % 60)))"; done; done)"
line '(value), 60 objects and 300 facts' 2000 "$week" '(value)'
line '(did ..), the same, that changes nothing' 1000 "$week" '(did meet none)'
line '(did ..), the same, a proposition' 1000 "$week" '(did meet done)'
line '(did ..), the same, a predicate of one place' 500 "$week" $'(did shift done 0 1)\n(did shift done 1 0)'
line '(did ..), the same, a predicate of two places, 240 facts' 40 "$week" '(did turn done 7)'
line '(did ..), refused at its variant (2)' 50000 "$week" '(did turn gone 7)'
plans='(constant hub)
(predicate plan 6)
(total 1)
(reward (if (plan hub hub hub hub hub hub) 5 0))
(action add !v !m)
(variant only 1)
(becomes (plan ?v ?m ?p ?f ?t ?s) (if (plan ?v ?m ?p ?f ?t ?s) 1 (if (= ?v !v) (if (= ?m !m) (if (= ?p hub) (if (= ?f hub) (if (= ?t !v) (if (= ?s !m) 1 0) 0) 0) 0) 0) 0)))
(start)
(objects 64)
(is hub 0)'
line '(did ..), 64 objects, a predicate of six places, 1 fact' 2000 "$plans" '(did add only 63 62)'
line '(did ..), the same with 300 facts' 4 "$plans"$'\n'"$(for a in $(seq 0 299); do echo "(true plan $((a % 64)) $((a / 64)) 5 6 7 8)"; done)" '(did add only 63 62)'
states='(reward (if (stock ?x) (if (stock ?y) (if (= ?x ?y) 2 3) 1) 0))
(action wait)
(variant only 100)
(start)'
line '(count 16): 16 facts of one place, 65,536 states' 3 $'(predicate stock 1)\n'"$states" '(count 16)'
line '(count 1): 16 propositions, 65,536 states' 3 "$(seq -f '(predicate p%g 0)' 1 16)"$'\n(reward (if (p1) (if (p2) 3 2) (if (p16) 1 0)))\n(action wait)\n(variant only 100)\n(start)' '(count 1)'
relay=$(sed '/(start)/q' examples/relay.txt)
line "(reduce) of relay's diagram, 7 rows and two variables" 20000 "$relay"$'\n(backup)\n(reduce)' '(reduce)'
line '(reduce) that forms 100,000 combinations' 5 "$(sed '/(start)/q' host/corpus/combinations-at-100000.txt)" '(reduce)'
line '(text) of 19 rows, a form of 364 bytes' 20000 "$parts"$'\n(backup)\n'"$cuts" '(text)'
line '(text) of 540 rows, refused (19)' 5000 "$parts"$'\n(backup)\n'"$cuts"$'\n(backup)' '(text)'

# values with minimum variables (document 02, L12), by all valuations of both kinds: one van for all shelves, which none is, so that each van is asked about
shelves=$(sed '/(start)/q' examples/allshelves.txt)
line '(value) of allshelves, 60 objects, one variable of each kind' 4000 "$shelves"$'\n(objects 60)\n'"$(seq -f '(true shelf %g)' 30 59; for v in $(seq 0 29); do echo "(true serves $v $((v + 30)))"; done)" '(value)'
line '(value) of allshelves after a backup, 7 objects, four and three' 60 "$shelves"$'\n(backup)\n(objects 7)\n'"$(seq -f '(true shelf %g)' 3 6)"$'\n(true here 0)\n(true serves 0 3)\n(true serves 1 4)' '(value)'
