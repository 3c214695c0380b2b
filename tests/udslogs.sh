# shellcheck shell=bash disable=SC2154,SC2094
# ./udslogs: what it reads, what it prints, and what it says where one of the two fails. `scripts/shell-tests udslogs` runs this.

good="$room/one good.log"
scripts/hex-to-log <examples/02-wait-notice-first.hex >"$good"
line='positive 900 2 1 4142'
badlog='badlog 0 0 0 -'
list=crates/replay/data/logs

# The programs are built before they are tested.
./udslogs </dev/null || return
./udslog </dev/null >/dev/null || return

framed() { # framed FILE..: each file after its length
    local file size
    for file; do
        size=$(wc -c <"$file")
        printf '%08x' "$size" | sed 's/../\\x&/g' | xargs -0 printf
        cat "$file"
    done
}
framed "$good" >"$room/one.logs"

# Reading.
input() { ./udslogs <"$room/one.logs"; }
empty() { ./udslogs </dev/null; }
whole_list() { ./udslogs "$list.bin" | cmp - "$list.expected"; }
pieces() { (head -c 100000 "$list.bin" && sleep 0.2 && tail -c +100001 "$list.bin") | ./udslogs | cmp - "$list.expected"; }
byte_by_byte() { for ((i = 1; i <= $(wc -c <"$room/one.logs"); i++)); do tail -c +$i "$room/one.logs" | head -c 1; done | ./udslogs; }
several() { ./udslogs "$room/one.logs" - "$room/one.logs" <"$room/one.logs"; }
as_udslog() { # the examples, one by one and as one file
    local file names=()
    for file in examples/*.hex; do
        names+=("$room/$(basename "$file").log")
        scripts/hex-to-log <"$file" >"${names[-1]}"
    done
    framed "${names[@]}" | ./udslogs | cmp - <(./udslog "${names[@]}" | sed 's/^.*: //') && echo same
}
bad_inside() { (framed "$good" /dev/null "$good" examples/02-wait-notice-first.hex "$good") | ./udslogs; }
cut() { head -c "$1" "$room/one.logs" | ./udslogs; }
too_long() { # 65,536 and 200,000 bytes, which no header can tell
    local size
    for size in 65536 200000; do head -c $size /dev/zero >"$room/$size"; done
    framed "$good" "$room/65536" "$good" "$room/200000" "$good" | ./udslogs
}
longest() { # 65,535 bytes are not too many
    (echo '0001 00 20 0022 00 00 00 00 ffdb 0024 0000 ffff 0000 ffff ffff 00000032 00001388 00000000' | scripts/hex-to-log && head -c 65499 /dev/zero) >"$room/longest"
    framed "$room/longest" "$good" "$room/longest" | ./udslogs
}
endless() { timeout 20 ./udslogs /dev/zero | head -n 2; }
try "udslogs: one log" 0 "$line" "" input
try "udslogs: no log" 0 "" "" empty
try "udslogs: a pipe fed byte by byte" 0 "$line" "" byte_by_byte
try "udslogs: several files" 0 "$line"$'\n'"$line"$'\n'"$line" "" several
try "udslogs: each log's line is udslog's" 0 "same" "" as_udslog
try "udslogs: a bad log inside is a line and not the end" 0 "$line"$'\n'"$badlog"$'\n'"$line"$'\n'"$badlog"$'\n'"$line" "" bad_inside
# Monday's file ends inside its log, and Tuesday's begins with a whole one.
framed "$good" "$good" >"$room/two.logs"
monday() {
    head -c 66 "$room/two.logs" >"$room/mon.logs"
    head -c 68 "$room/two.logs" >"$room/tue.logs"
    ./udslogs "$room/mon.logs" "$room/tue.logs"
}
third() { (cat "$room/two.logs" && head -c 5 "$room/two.logs") | ./udslogs; }
# The list that the gate replays has a log of 65,572 bytes.
try "udslogs: the list that the gate replays" 3 "" "logs.bin: log 1062: 65572 bytes cannot be a log's length" whole_list
try "udslogs: a pipe fed in pieces" 3 "" "standard input: log 1062: 65572 bytes cannot be a log's length" pieces
try "udslogs: a half log is not completed with the next file's bytes" 3 "$badlog"$'\n'"$line" \
    "mon.logs: log 1: the file ends inside it" monday
try "udslogs: a file that ends inside a log" 3 "$badlog" "standard input: log 1: the file ends inside it" cut 67
try "udslogs: a file that ends inside a length" 3 "$badlog" "standard input: log 1: the file ends inside it" cut 3
try "udslogs: a length without its log" 3 "$badlog" "standard input: log 1: the file ends inside it" cut 4
try "udslogs: a file that ends inside its third log" 3 "$line"$'\n'"$line"$'\n'"$badlog" \
    "standard input: log 3: the file ends inside it" third
try "udslogs: logs that are too long are passed over" 3 "$line"$'\n'"$badlog"$'\n'"$line"$'\n'"$badlog"$'\n'"$line" \
    "log 2: 65536 bytes*log 4: 200000 bytes cannot be a log's length" too_long
try "udslogs: the longest log" 0 "refused 0 0 0 08"$'\n'"$line"$'\n'"refused 0 0 0 08" "" longest
try "udslogs: input without an end" 1 "$badlog"$'\n'"$badlog" "output*Broken pipe" endless

# What the launcher makes of what the program says, with a stand-in for the program, which does what its input says.
stand="$room/stand-in"
mkdir -p "$stand/scripts"
cp udslogs "$stand/" && cp scripts/launcher "$stand/scripts/"
printf '#!/bin/sh\n' | tee "$stand/scripts/program" >"$stand/scripts/run"
echo 'exec sh' >>"$stand/scripts/run"
chmod +x "$stand"/scripts/{program,run}
echo 'echo "line 1"; echo "length 1 16777280" >&2; echo "line 2"; echo "cut 2" >&2' >"$stand/mon"
echo 'echo "line 3"' >"$stand/tue"
echo 'exit 5' >"$stand/wed"
days() { (cd "$stand" && ./udslogs "$@"); }
words=$'udslogs: mon: log 1: 16777280 bytes cannot be a log\'s length, which is at most 65,535\nudslogs: mon: log 2: the file ends inside it'
try "udslogs: damage is told with the file's name, and the next file is read" 3 $'line 1\nline 2\nline 3' "$words" days mon tue
try "udslogs: a whole file" 0 "line 3" "" days tue
try "udslogs: a missing file counts more" 1 $'line 1\nline 2\nline 3' "none: No such file" days mon none tue
try "udslogs: a program that fails" 1 "line 3" "the program failed" days tue wed tue
strange() { cp "$stand/mon" "$stand/"$'a\nb' && days $'a\nb'; }
try "udslogs: a name that would break the line is quoted" 3 $'line 1\nline 2' "\$'a\\\\nb': log 2" strange

# What fails.
missing() { ./udslogs "$room/none" "$room/one.logs"; }
directory() { ./udslogs <"$room"; }
closed_input() { timeout 20 ./udslogs <&-; }
full() { ./udslogs "$list.bin" >/dev/full; }
closed() { ./udslogs "$room/one.logs" >&-; }
full_help() { ./udslogs --help >/dev/full; }
nothing_open() { timeout 20 ./udslogs "$room/one.logs" <&- >&- 2>&-; }
try "udslogs: a missing file does not keep the next from its lines" 1 "$line" "$room/none*No such file" missing
try "udslogs: a directory as standard input" 1 "" "standard input*Is a directory" directory
try "udslogs: closed input" 1 "" "standard input*Bad file descriptor" closed_input
try "udslogs: full output" 1 "" "output*No space left on device" full
try "udslogs: closed output" 1 "" "output*Bad file descriptor" closed
try "udslogs: --help to full output" 1 "" "output*No space left on device" full_help
try "udslogs: all three closed" 1 "" "" nothing_open

# Usage, and where it stands.
help() { ./udslogs "$1" | sed -n 1p; }
try "udslogs: --help" 0 "usage: udslogs [FILE].." "" help --help
try "udslogs: -h" 0 "usage: udslogs [FILE].." "" help -h
try "udslogs: an unknown option" 2 "" "no option --colour*usage: udslogs" ./udslogs "$room/one.logs" --colour
copied() { cp udslogs "$room/" && "$room/udslogs" "$room/one.logs"; }
tidy() { mkdir "$room/tmp-udslogs" && TMPDIR=$room/tmp-udslogs ./udslogs "$room/one.logs" && ls -A "$room/tmp-udslogs"; }
try "udslogs: a copy builds nothing elsewhere" 1 "" "no program to build" copied
try "udslogs: no temporary file stays" 0 "$line" "" tidy
memory() { # what it holds hangs on no input: 60 MB of logs in 4 MB of memory
    for ((i = 0; i < 60; i++)); do cat "$list.bin"; done | (ulimit -v 8000 && exec target/bin/udslogs) | tail -n 1 | cmp - <(tail -n 1 "$list.expected") && echo same
}
[ "$(uname -m)" != x86_64 ] || try "udslogs: bounded memory" 0 "same" "length 1062 65572" memory

# The program without its launcher: what it says on standard error of one file of logs, and that its lines are the same.
logs_program=$(scripts/program udslogs) || return
said() { scripts/run "$logs_program" 2>&1 >/dev/null; }
bytes() { printf '%b' "$1"; }
says_whole() { framed "$good" "$good" "$good" | said; }
says_list() { said <"$list.bin"; }
says_empty() { said </dev/null; }
says_cut() { (cat "$room/one.logs" && head -c "$1" "$room/one.logs") | said; }
says_length() { framed "$good" "$room/65536" "$good" "$room/200000" "$good" | said; }
says_both() { (cat "$room/one.logs" && bytes '\x01\x00\x00\x40' && cat "$room/one.logs" "$room/one.logs") | said; }
lines_of_both() {
    (cat "$room/one.logs" && bytes '\x01\x00\x00\x40' && cat "$room/one.logs" "$room/one.logs") | scripts/run "$logs_program" 2>/dev/null
}
says_three_bytes() { bytes '\x01\x00\x00' | said; }
says_longest() { (framed "$room/longest" && bytes '\x00\x00\xff\xff') | said; }
says_many() { # log 70,001 is cut, behind more logs than a buffer has room for
    (head -c 280000 /dev/zero && head -c 9 "$room/one.logs") | said
}
says_in_pieces() {
    (bytes '\x00\x01' && sleep 0.1 && bytes '\x00\x01\x07' && sleep 0.1 && head -c 65530 /dev/zero && sleep 0.1 && head -c 11 /dev/zero) | said
}
as_in_the_gate() { said <crates/udslogs/stdin | cmp - <(scripts/udslogs-input --said) && echo same; }
try "udslogs: nothing is said of whole logs" 0 "" "" says_whole
try "udslogs: the one log of the gate's list that is too long is said" 0 "length 1062 65572" "" says_list
try "udslogs: nothing is said of an empty file" 0 "" "" says_empty
try "udslogs: a cut log is said" 0 "cut 2" "" says_cut 67
try "udslogs: a cut length is said" 0 "cut 2" "" says_cut 3
try "udslogs: a length without its log is said" 0 "cut 2" "" says_cut 4
try "udslogs: lengths that no log has are said" 0 "length 2 65536"$'\n'"length 4 200000" "" says_length
try "udslogs: a length that no log has, and a cut" 0 "length 2 16777280"$'\n'"cut 2" "" says_both
try "udslogs: the lines beside what is said" 0 "$line"$'\n'"$badlog" "" lines_of_both
try "udslogs: three bytes are no length" 0 "cut 1" "" says_three_bytes
try "udslogs: 65,535 is a length" 0 "cut 2" "" says_longest
try "udslogs: the number of a cut log behind many" 0 "cut 70001" "" says_many
try "udslogs: a length and a cut, fed in pieces" 0 "length 1 65537"$'\n'"cut 3" "" says_in_pieces
try "udslogs: what is said of the gate's own file" 0 "same" "" as_in_the_gate

# The file that the gate runs the program on is what its script writes, and passes every branch of its reading and writing.
try "udslogs: the gate's own file" 0 "" "" scripts/udslogs-input --check
shorter() { # a copy of the repository's part in which the file passes no read behind the first
    mkdir -p "$room/top/scripts" "$room/top/crates/udslogs/src" "$room/top/crates/replay" && cp scripts/udslogs-input "$room/top/scripts/" || return
    cp -r crates/replay/data "$room/top/crates/replay/" && sed 's/let mut input = \[0u8; [0-9]*\]/let mut input = [0u8; 9999999]/' crates/udslogs/src/main.rt \
        >"$room/top/crates/udslogs/src/main.rt" && cp crates/udslogs/std* "$room/top/crates/udslogs/" && "$room/top/scripts/udslogs-input" --check
}
try "udslogs: a file that passes too little" 1 "" "does not pass*more is read behind what is held" shorter
