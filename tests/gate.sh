# shellcheck shell=bash disable=SC2154,SC2016
# ./test and .ci/run: the sum of the parts, and what fails the gate. `scripts/shell-tests gate` runs this, in a folder whose rt and
# scripts only say what the test has them say.

gate=$room/gate
mkdir -p "$gate"/{oracle,scripts,.ci,tools}
cp test "$gate/" && cp .ci/run "$gate/.ci/"

# part NAME COMMANDS: the stand-in for a part.
part() { printf '#!/bin/sh\n%s\n' "$2" >"$gate/$1" && chmod +x "$gate/$1"; }
part tools/rt '[ "$*" = ci ] && echo "rt: ok; handles allowed: none; must-fail edits: 9 refused; every proof was done in this run" && echo "20 passed, 0 failed"'
part scripts/built true
part scripts/edits true
part scripts/replay-list true
part scripts/vectors true
part scripts/code-table true
part scripts/reading true
part oracle/constants true
part scripts/hosts 'echo "5 passed, 0 failed"'
part scripts/shell-tests 'echo "60 passed, 0 failed"'

# gate COMMAND: its status, and its last line; where that is red, what it says of failures before.
gate() {
    PATH=$gate/tools:$PATH "$gate/$1" >"$gate/out" 2>&1
    local status=$?
    grep -e '^FAILED' -e 'not run$' "$gate/out"
    tail -n 1 "$gate/out"
    return "$status"
}

try "gate: the last line is the sum of all parts" 0 "91 passed, 0 failed" "" gate test
try "gate: green" 0 "91 passed, 0 failed" "" gate .ci/run

part scripts/hosts 'echo "3 passed, 2 failed"; exit 1'
try "gate: failures are summed too" 1 "89 passed, 2 failed" "" gate .ci/run
part scripts/hosts 'echo "linking .."; exit 3'
try "gate: a part that dies without its line" 1 \
    "FAILED: scripts/hosts ended with status 3 and without 'N passed, M failed'"$'\n'"86 passed, 1 failed" "" gate .ci/run
part scripts/hosts 'echo "5 passed, 0 failed"; exit 1'
try "gate: a part that fails behind a good line" 1 "91 passed, 1 failed" "" gate .ci/run
part scripts/hosts 'echo "5 passed, 0 failed"'

part scripts/replay-list 'exit 1'
try "gate: the list that is replayed is out of date" 1 "90 passed, 1 failed" "" gate .ci/run
part scripts/replay-list true

part tools/rt 'echo "rt: ok; handles allowed: none; must-fail edits: 7 refused, 2 bad; every proof was done in this run"; echo "20 passed, 0 failed"'
try "gate: must-fail edits that say nothing" 1 "FAILED: must-fail edits that say nothing: 2; rt ci names them above
== scripts/hosts and scripts/shell-tests stand on what rt ci proves, and were not run"$'\n'"26 passed, 2 failed" "" gate .ci/run
part tools/rt 'echo "19 passed, 1 failed"; exit 1'
try "gate: what stands on a red verdict is not run" 1 \
    "== scripts/hosts and scripts/shell-tests stand on what rt ci proves, and were not run"$'\n'"25 passed, 1 failed" "" gate .ci/run
part test 'echo "5 passed, 0 failed"; exit 1'
try "gate: a good line does not hide a bad status" 1 "5 passed, 0 failed" "" gate .ci/run
part test 'echo "0 passed, 0 failed"'
try "gate: no test at all is no pass" 1 "0 passed, 0 failed" "" gate .ci/run
part test 'echo "5 passed, 0 failed"; echo "and something more"'
try "gate: the sum is the last line" 1 "and something more" "" gate .ci/run
