# shellcheck shell=bash disable=SC2154,SC2094
# ./udsmend: what it writes to both streams, and what it says where one fails. `scripts/shell-tests udsmend` runs this.

whole="$room/whole.log"
scripts/hex-to-log <examples/02-wait-notice-first.hex >"$whole"
whole_2="$room/whole-2.log"
scripts/hex-to-log <examples/18-trolley-late-count.hex >"$whole_2"

# The programs are built before they are tested.
./udsmend <"$whole" >/dev/null 2>&1 || return
./udslog </dev/null >/dev/null || return

bytes() { od -An -v -tx1 | tr -d ' \n' | sed 's/$/\n/'; } # as one line of hex
cut_hex() { head -c "$1" "$whole" | ./udsmend | bytes; }

# The printed example: a log without its last two bytes.
mended='00010703f1900000000000000024000100240006002e003400000032000013880000000000000014000000000003''7f227862f190'
report=$'kept 1 promised 2\nevents-count 2 1\nreplies-count 8 6\nreplies-offset 56 46\ntotal 64 52'
report() { { head -c 62 "$whole" | ./udsmend >/dev/null; } 2>&1; }
try "udsmend: a log without its last two bytes" 0 "$mended" "$report" cut_hex 62
try "udsmend: its report, line by line" 0 "$report" "" report
try "udsmend: a sound log comes out as it is" 0 "$(bytes <"$whole")" "kept 2 promised 2" cut_hex 64

# Each place of a cut, in both versions: refused inside the header, else a log that udslog takes, and mended again it stays as it is.
cuts() { # cuts LOG: cut to every length; says each length that is not as it must be
    local n size header status line
    size=$(wc -c <"$1")
    header=36
    [ "$(head -c 2 "$1" | bytes)" = 0001 ] || header=37
    for ((n = 0; n <= size; n++)); do
        head -c "$n" "$1" | ./udsmend >"$room/once" 2>/dev/null
        status=$?
        if [ "$n" -lt "$header" ]; then
            [ "$status" -eq 3 ] && [ ! -s "$room/once" ] || echo "$n is not refused"
            continue
        fi
        line=$(./udslog "$room/once")
        [[ $line != badlog* && $line != refused* ]] || echo "$n gives $line"
        ./udsmend <"$room/once" 2>/dev/null | cmp -s - "$room/once" || echo "$n changes twice"
    done
    echo "$n lengths"
}
try "udsmend: a log cut to every length" 0 "65 lengths" "" cuts "$whole"
try "udsmend: a log of version 2 cut to every length" 0 "$(($(wc -c <"$whole_2") + 1)) lengths" "" cuts "$whole_2"
bad_total() { scripts/hex-to-log <examples/15-bad-log.hex | ./udsmend | ./udslog; }
try "udsmend: a wrong total" 0 "positive 12 1 0 03e8" "total 52 51" bad_total
as_shown() { scripts/hex-to-log <examples/02-wait-notice-first.hex | head -c 62 | ./udsmend 2>/dev/null | ./udslog; }
try "udsmend: what --help shows" 0 "timeout 5020 1 1 -" "" as_shown

# Refusals: nothing is written, and the status says so.
empty() { ./udsmend </dev/null; }
version_3() { (printf '\0\3' && tail -c +3 "$whole") | ./udsmend; }
call_16() { (head -c 2 "$whole" && printf '\20' && tail -c +4 "$whole") | ./udsmend; }
arguments() { (head -c 10 "$whole" && printf '\0\35' && tail -c +13 "$whole") | ./udsmend; }
call_and_arguments() { (head -c 2 "$whole" && printf '\20' && tail -c +4 "$whole" | head -c 7 && printf '\0\35' && tail -c +13 "$whole") | ./udsmend; }
try "udsmend: empty input" 3 "" "refused 18" empty
try "udsmend: there is no version 3" 3 "" "refused 18" version_3
try "udsmend: there is no call 16" 3 "" "refused 18" call_16
try "udsmend: more argument bytes than the file holds" 3 "" "refused 19" arguments
try "udsmend: 18 comes before 19" 3 "" "refused 18" call_and_arguments

# Bytes past 65,535 are not read, and those behind the last area go.
longest() {
    echo '0001 00 20 0022 00 00 00 00 ffdb 0024 0000 ffff 0000 ffff ffff 00000032 00001388 00000000' | scripts/hex-to-log
    head -c 65499 /dev/zero
}
longest_log() { longest | ./udsmend | cmp - <(longest) && echo same; }
endless() { timeout 20 ./udsmend < <(longest && cat /dev/zero) | cmp - <(longest) && echo same; }
behind() { (cat "$whole" && echo more) | ./udsmend | cmp - "$whole" && echo same; }
try "udsmend: the longest log" 0 "same" "kept 0 promised 0" longest_log
try "udsmend: input without an end" 0 "same" "kept 0 promised 0" endless
try "udsmend: bytes behind the last area" 0 "same" "kept 2 promised 2" behind
zeros() { timeout 20 ./udsmend </dev/zero; }
try "udsmend: zeros without an end" 3 "" "refused 18" zeros

# Reading and writing.
pieces() { (head -c 20 "$whole" && sleep 0.2 && tail -c +21 "$whole") | ./udsmend | cmp - "$whole" && echo same; }
closed_input() { timeout 20 ./udsmend <&-; }
directory() { ./udsmend <"$room"; }
full() { ./udsmend <"$whole" >/dev/full; }
closed() { ./udsmend <"$whole" >&-; }
closed_pipe() {
    mkfifo "$room/pipe-2"
    exec 8<>"$room/pipe-2" 9>"$room/pipe-2" 8<&- # its reader is gone
    ./udsmend <"$whole" >&9
}
nothing_open() { timeout 20 ./udsmend <&- >&- 2>&-; }
try "udsmend: a pipe fed in pieces" 0 "same" "kept 2 promised 2" pieces
try "udsmend: closed input" 1 "" "standard input*Bad file descriptor" closed_input
try "udsmend: a directory as standard input" 1 "" "standard input*Is a directory" directory
try "udsmend: full output" 1 "" "output*No space left on device" full
try "udsmend: closed output" 1 "" "output*Bad file descriptor" closed
try "udsmend: a closed pipe" 1 "" "output*Broken pipe" closed_pipe
try "udsmend: all three closed" 1 "" "" nothing_open

# Usage, and where it stands.
help() { ./udsmend "$1" | sed -n '1p; s/^prints: *//p'; }
try "udsmend: --help" 0 "usage: udsmend < DAMAGED > MENDED"$'\n'"timeout 5020 1 1 -" "" help --help
try "udsmend: -h" 0 "usage: udsmend < DAMAGED > MENDED"$'\n'"timeout 5020 1 1 -" "" help -h
try "udsmend: a word after it is wrong usage" 2 "" "usage: udsmend" ./udsmend "$whole"
linked() {
    mkdir "$room/links"
    ln -s "$PWD/udsmend" "$room/links/first"
    ln -s first "$room/links/a link"
    cd "$room" && "links/a link" <whole.log | cmp - whole.log && echo same
}
copied() { cp udsmend "$room/" && "$room/udsmend" <"$whole"; }
tidy() { mkdir "$room/tmp-2" && TMPDIR=$room/tmp-2 ./udsmend <"$whole" 2>/dev/null | cmp - "$whole" && ls -A "$room/tmp-2" && echo same; }
no_folder() { TMPDIR=$room/none ./udsmend <"$whole"; }
try "udsmend: through links, from another folder" 0 "same" "kept 2 promised 2" linked
try "udsmend: a copy builds nothing elsewhere" 1 "" "no program to build" copied
try "udsmend: no temporary file stays" 0 "same" "" tidy
try "udsmend: no folder for temporary files" 1 "" "cannot make a temporary folder" no_folder
