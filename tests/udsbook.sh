# shellcheck shell=bash disable=SC2154,SC2094
# ./udsbook: what it writes to both streams, and what it says where one fails. `scripts/shell-tests udsbook` runs this.

log="$room/a.log"
scripts/hex-to-log <examples/02-wait-notice-first.hex >"$log"
empty="$room/empty.book"
one="$room/one.book"
week="$room/week.book"

# The program is built before it is tested.
./udsbook new >"$empty" 2>/dev/null || return
./udslog </dev/null >/dev/null || return

bytes() { od -An -v -tx1 | tr -d ' \n' | sed 's/$/\n/'; } # as one line of hex
add() { ./udsbook add "$1" <"$2" >"$3"; }

# The printed examples.
new() { ./udsbook new | bytes; }
try "udsbook: the empty book" 0 5542000100000014000000000000001400000014 "" new
try "udsbook: a log added" 0 "" $'added 7 0\n7 positive 1' add "$empty" "$log" "$one"
front() { head -c 28 "$one" | bytes; }
try "udsbook: its header and its entry" 0 "5542000100010014000000400000001c0000005c""070000400000001c" "" front
found() { ./udsbook find "$one" 7 0 | cmp - "$log"; }
try "udsbook: what was added is found" 0 "" "" found
try "udsbook: the summary" 0 "7 positive 1" "" ./udsbook summary "$one"
try "udsbook: of an empty book it is empty" 0 "" "" ./udsbook summary "$empty"

# All logs of examples/ that udslog does not call bad: each is found as it was added, and the summary counts each once, as udslog prints it.
whole_week() {
    local hex name call number count=0
    cp "$empty" "$week"
    : >"$room/lines"
    for hex in examples/*.hex; do
        name=$room/${hex##*/}.log
        scripts/hex-to-log <"$hex" >"$name"
        [[ $(./udslog "$name") != badlog* ]] || continue
        if ! ./udsbook add "$week" <"$name" >"$week.new" 2>"$room/added"; then
            echo "$hex is refused"
            continue
        fi
        mv "$week.new" "$week"
        read -r _ call number <"$room/added"
        echo "$call $number $name" >>"$room/lines"
        count=$((count + 1))
    done
    while read -r call number name; do
        ./udsbook find "$week" "$call" "$number" | cmp -s - "$name" || echo "$call $number is not $name"
    done <"$room/lines"
    ./udsbook summary "$week" | awk -v count="$count" '{ sum += $NF } END { print (sum == count ? "each counts once" : sum " of " count) }'
}
try "udsbook: a week of examples" 0 "each counts once" "" whole_week
calls() { ./udsbook summary "$week" | awk '{ print $1 }' | sort -nc; }
try "udsbook: by call" 0 "" "" calls

# Refusals: with 22 and 23 the old book is written, with 24 and 25 nothing; the status says so.
no_book() { ./udsbook add "$log" <"$log"; }
bad_log() { ./udsbook add "$one" </dev/null | cmp - "$one"; }
both_bad() { ./udsbook add "$log" </dev/null; }
status_23() { ./udsbook add "$one" </dev/null >/dev/null; }
try "udsbook: a log is no book" 3 "" "refused 25" no_book
try "udsbook: the old book where the log is bad" 3 "" "refused 23" bad_log
try "udsbook: and the status" 3 "" "refused 23" status_23
try "udsbook: 25 comes first" 3 "" "refused 25" both_bad
try "udsbook: no such log" 3 "" "refused 24*there is no such log" ./udsbook find "$one" 7 1
try "udsbook: no such call" 3 "" "refused 24" ./udsbook find "$one" 263 0
try "udsbook: the largest numbers" 3 "" "refused 24" ./udsbook find "$one" 18446744073709551615 18446744073709551615
try "udsbook: find in no book" 3 "" "refused 25" ./udsbook find "$log" 7 0
try "udsbook: the summary of no book" 3 "" "refused 25*is no book" ./udsbook summary "$log"
longer() { (cat "$one" && printf x) >"$room/longer" && ./udsbook summary "$room/longer"; }
try "udsbook: a byte more is no book" 3 "" "refused 25" longer

# Room to the byte: a log without events and 65,508 bytes of replies fills a book; one byte more is refused.
filler() { # filler SIZE: a log of version 1, call 7, of so many bytes
    printf '\x00\x01\x07\x03\xf1\x90\x00\x00\x00\x00\x00\x00\x00\x24\x00\x00\x00\x24'
    printf '%b' "$(printf '\\x%02x\\x%02x' $((($1 - 36) / 256)) $((($1 - 36) % 256)))"
    printf '\x00\x24'
    printf '%b' "$(printf '\\x%02x\\x%02x' $(($1 / 256)) $(($1 % 256)))"
    printf '\x00\x00\x00\x32\x00\x00\x13\x88\x00\x00\x00\x00'
    head -c $(($1 - 36)) /dev/zero
}
fills() { filler 65508 | ./udsbook add "$empty" | wc -c; }
overflows() { filler 65509 | ./udsbook add "$empty" | cmp - "$empty"; }
too_long() { filler 65535 | (cat && printf x) | ./udsbook add "$empty" | cmp - "$empty"; }
try "udsbook: 65,536 bytes" 0 65536 $'added 7 0\n7 timeout 1' fills
try "udsbook: 65,537 bytes" 3 "" "refused 22" overflows
try "udsbook: 65,536 bytes are no log" 3 "" "refused 23" too_long

# Wrong usage: what is wrong, and the usage.
usage='usage: udsbook new | add BOOK | add BOOK LOG | find BOOK CALL K | summary BOOK'
try "udsbook: no words" 2 "" "$usage" ./udsbook
try "udsbook: no such command" 2 "" "no command 'list'*$usage" ./udsbook list "$one"
try "udsbook: a word too many" 2 "" "new takes*$usage" ./udsbook new "$one"
try "udsbook: a word too few" 2 "" "find takes*$usage" ./udsbook find "$one" 7
try "udsbook: no number" 2 "" "are numbers*$usage" ./udsbook find "$one" seven 0
try "udsbook: an empty number" 2 "" "$usage" ./udsbook find "$one" 7 ""
try "udsbook: a number past 64 bits" 2 "" "$usage" ./udsbook find "$one" 7 18446744073709551616
try "udsbook: a book that is not there" 2 "" "$room/none cannot be read: No such file*$usage" ./udsbook summary "$room/none"
try "udsbook: a folder" 2 "" "$room cannot be read: Is a directory*$usage" ./udsbook summary "$room"

# What fails is told.
full() { ./udsbook new >/dev/full; }
closed() { ./udsbook new >&-; }
try "udsbook: a full disk" 1 "" "standard output cannot be written" full
try "udsbook: standard output is closed" 1 "" "standard output cannot be written" closed
try "udsbook: --help" 0 "$(./udsbook --help)" "" ./udsbook --help

# In place: BOOK is replaced by a book that was written beside it, or it stays as it is, byte for byte, and nothing stays beside it.
shelf="$room/a shelf"
mkdir "$shelf"
in_place() { # in_place BOOK COMMAND..: BOOK put on the shelf, and what COMMAND makes of it
    local status
    cp "$1" "$shelf/week" && chmod 640 "$shelf/week"
    "${@:2}"
    status=$?
    if cmp -s "$1" "$shelf/week"; then echo "as it was"; else ./udsbook summary "$shelf/week"; fi
    (cd "$shelf" && stat -c '%n %a' -- * .[!.]* 2>/dev/null)
    return "$status"
}
as_before=$'as it was\nweek 640'
add_in_place() { ./udsbook add "$shelf/week" "$1"; }
from_input() { ./udsbook add "$shelf/week" - <"$log"; }
by_link() { ln -sf "a shelf/week" "$room/link" && ./udsbook add "$room/link" "$log" && readlink "$room/link"; }
same_as_old() { ./udsbook add "$empty" <"$log" >"$room/old-form" 2>/dev/null && add_in_place "$log" && cmp "$room/old-form" "$shelf/week"; }
two_at_once() {
    ./udsbook add "$shelf/week" "$log" 2>/dev/null &
    ./udsbook add "$shelf/week" "$log" 2>/dev/null
    wait
}
try "udsbook: a log added in place" 0 $'7 positive 1\nweek 640' $'added 7 0\n7 positive 1' in_place "$empty" add_in_place "$log"
try "udsbook: the same book as to standard output" 0 $'7 positive 1\nweek 640' $'added 7 0\n7 positive 1' in_place "$empty" same_as_old
try "udsbook: a log from standard input" 0 $'7 positive 1\nweek 640' "added 7 0" in_place "$empty" from_input
try "udsbook: the book behind a link is replaced" 0 $'a shelf/week\n7 positive 1\nweek 640' "added 7 0" in_place "$empty" by_link
if command -v flock >/dev/null; then
    try "udsbook: two at once lose no log" 0 $'7 positive 2\nweek 640' "" in_place "$empty" two_at_once
fi
try "udsbook: a bad log leaves the book" 3 "$as_before" "refused 23*week stays as it was" in_place "$one" add_in_place /dev/null
filler 65508 >"$room/filler"
try "udsbook: no room leaves the book" 3 "$as_before" "refused 22*week stays as it was" in_place "$one" add_in_place "$room/filler"
try "udsbook: no book stays what it is" 3 "$as_before" "refused 25*week stays as it was" in_place "$log" add_in_place "$log"
try "udsbook: no log leaves the book" 1 "$as_before" "$room/none*No such file" in_place "$one" add_in_place "$room/none"
try "udsbook: a log that cannot be read leaves the book" 1 "$as_before" "/proc/self/mem*Input/output error" \
    in_place "$one" add_in_place /proc/self/mem
try "udsbook: no book to add to" 2 "" "$room/none cannot be read: No such file*$usage" ./udsbook add "$room/none" "$log"
try "udsbook: a folder is no book" 2 "" "cannot be read: Is a directory*$usage" ./udsbook add "$shelf" "$log"
try "udsbook: a device cannot be replaced" 2 "" "is no file*$usage" ./udsbook add /dev/null "$log"
no_folder() { TMPDIR=$room/none add_in_place "$log"; }
try "udsbook: no temporary folder leaves the book" 1 "$as_before" "cannot make a temporary folder" in_place "$one" no_folder
fixed() { # a folder in which nothing can be made; root may all the same, unless it gives that up
    local status
    chmod 555 "$shelf"
    if [ "$(id -u)" -eq 0 ]; then
        setpriv --bounding-set=-dac_override,-dac_read_search ./udsbook add "$shelf/week" "$log"
    else
        add_in_place "$log"
    fi
    status=$?
    chmod 755 "$shelf"
    return "$status"
}
try "udsbook: a folder that may not be written leaves the book" 1 "$as_before" "nothing can be written beside*stays as it was" in_place "$one" fixed
full_beside() { (trap '' XFSZ && ulimit -f 64 && add_in_place "$log"); } # no file may have more than 65,536 bytes
cut_beside() { (trap '' XFSZ && ulimit -f 63 && add_in_place "$log"); }
filler 64436 | ./udsbook add "$empty" >"$room/large.book" 2>/dev/null # 64,464 bytes: 63 KiB less 48, and 64 + 8 more are too many
try "udsbook: a full disk beside the book leaves it" 1 "$as_before" "cannot be written: File too large" in_place "$room/large.book" cut_beside
try "udsbook: and with a little more room it goes" 0 $'7 positive 1\n7 timeout 1\nweek 640' "added 7 1" in_place "$room/large.book" full_beside
