#!/usr/bin/env bash
# All tests: layout, proofs, must-fail edits, test programs (rt ci, which also refuses what is not laid out), then the host tests. The gate's verdict 'N passed, M failed' is
# the last line; a host test that fails and a must-fail edit that is none count among its failed ones.
set -uo pipefail
cd "$(dirname "$0")" || exit 2

log=$(mktemp)
first_log=$(mktemp)
host_log=$(mktemp)
library_log=$(mktemp)
library_status=$(mktemp)
trap 'rm -f "$log" "$first_log" "$host_log" "$library_log" "$library_status"' EXIT

# The host tests that need neither program nor library go beside the proofs, which leave a processor idle now and then.
first=
can_test=no
if command -v cargo >/dev/null && command -v cc >/dev/null; then can_test=yes; fi
if [ "$can_test" = yes ]; then
    nice -n 19 bash host/test.sh --first "" 10 >"$first_log" 2>&1 &
    first=$!
fi
rt ci 2>&1 | tee "$log" | sed -u '$d'
status=${PIPESTATUS[0]}
verdict=$(tail -n 1 "$log")
# A run that says nothing of this kind has not passed.
if ! grep -qx '[0-9]* passed, [0-9]* failed' <<<"$verdict"; then
    echo "$verdict"
    verdict='0 passed, 1 failed'
    [ "$status" -ne 0 ] || status=1
fi

# Must-fail edits that cannot be applied or read: rt ci counts them in its line 'rt: ok' and passes.
bad=$(sed -n 's/^rt: ok;.*must-fail edits: [^;]*, \([0-9][0-9]*\) bad\(;.*\)\{0,1\}$/\1/p' "$log" | tail -n 1)
bad=${bad:-0}
[ "$bad" -eq 0 ] || echo "bad must-fail edits: $bad"

# The failures that the last line of a host test's log tells; 1 where it tells none.
failures() {
    local n
    n=$(sed -n '$s/.* passed, \([0-9]*\) failed$/\1/p' "$1")
    echo "${n:-1}"
}

# The other host tests, their own verdict to $host_log. rt ci builds the program but not the static library, which is built beside the tests that do not need it.
host_tests() {
    { (cd crates/c_library && rt lib) >"$library_log" 2>&1; echo $? >"$library_status"; } &
    YINDOLVE_LIBRARY_STATUS=$library_status bash host/test.sh --rest crates/yindolve/out/yindolve 10 2>&1 | tee "$host_log" | sed -u '$s/^/host tests: /'
    wait
    [ "$(cat "$library_status")" = 0 ] || tail -n 20 "$library_log"
}

failed=$bad
if [ "$status" -ne 0 ]; then
    echo "the host tests are left out, since rt ci did not pass"
    [ -z "$first" ] || kill "$first" 2>/dev/null
elif [ "$can_test" = no ]; then
    echo "the host tests are left out, since they need cargo and a C compiler"
else
    wait "$first"
    host_tests
    sed '$s/^/host tests beside the proofs: /' "$first_log"
    failed=$((failed + $(failures "$first_log") + $(failures "$host_log")))
fi

if [ "$status" -eq 0 ] && [ "$failed" -ne 0 ]; then
    echo "${verdict%% passed,*} passed, $failed failed"
    exit 1
fi
echo "$verdict"
exit "$status"
