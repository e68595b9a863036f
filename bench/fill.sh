#!/usr/bin/env bash
# fill.sh OUTPUT: puts the tables that run.sh printed into docs/PERFORMANCE.md, each in place of the first one under the heading of its name; headings that the output lacks keep what they have.
set -euo pipefail
output=$(realpath "$1")
cd "$(dirname "$0")/.."
filled=$(awk '
    FNR == 1 { name = "" }
    /^##/ { name = $0 }
    NR == FNR && /^[|]/ { rows[name] = rows[name] $0 "\n" }
    NR == FNR && /^(Processor|Compilers): / { line[$1] = $0 }
    NR == FNR { next }
    /^[|]/ && name in rows { if (!(name in done)) printf "%s", rows[name]; done[name] = 1; next }
    name in done { name = "" }
    $1 in line { print line[$1]; next }
    { print }' "$output" docs/PERFORMANCE.md)
printf '%s\n' "$filled" >docs/PERFORMANCE.md
