# shellcheck shell=bash disable=SC2154,SC2016
# scripts/original: that crates/original's definitions are of the files whose sums are recorded, and name their lines.
# `scripts/shell-tests original` runs this. The original is no part of this repository: BINTROCHIS_ORIGINAL names its folder, and where it
# does not, what needs it is skipped.

# check FOLDER PATTERN: what is found of the pattern in what the script writes of a folder, and its status.
check() {
    local status=0 written
    written=$(scripts/original --check "$1") || status=$?
    grep -oE "$2" <<<"$written"
    return "$status"
}

try "original: without a folder" 1 "" "usage: original --check FOLDER" scripts/original --check
mkdir -p "$room/empty"
try "original: a folder without the files" 1 $'uds/mod.rs is missing\n0 passed' "" check "$room/empty" '^0 passed|uds/mod.rs is missing'

if [ -z "${BINTROCHIS_ORIGINAL-}" ]; then
    echo "skipped: original: BINTROCHIS_ORIGINAL names no folder of the original, so its files and the lines that the definitions name were not compared"
else
    try "original: the files have their sums, and the definitions name their lines" 0 "0 failed" "" check "$BINTROCHIS_ORIGINAL" '^FAILED.*|[0-9]+ failed'

    # A copy of the folder with one literal changed, and with a line more.
    mkdir -p "$room/changed/src/protocols/uds"
    cp "$BINTROCHIS_ORIGINAL"/src/protocols/macros.rs "$room/changed/src/protocols/"
    cp "$BINTROCHIS_ORIGINAL"/src/protocols/uds/*.rs "$room/changed/src/protocols/uds/"
    chmod -R u+w "$room/changed"
    sed -i 's/if value <= 0xf {/if value <= 0xe {/' "$room/changed/src/protocols/uds/types.rs"
    try "original: a literal of types.rs changed" 1 "FAILED: src/protocols/uds/types.rs has the recorded sum" "" check "$room/changed" '^FAILED.*'
    sed -i '25i\
' "$room/changed/src/protocols/uds/suppressed.rs"
    try "original: a line more in suppressed.rs" 1 "suppressed.rs 73-82 is not tester_present" "" \
        check "$room/changed" 'suppressed.rs 73-82 is not tester_present'
fi
