# shellcheck shell=bash disable=SC2154,SC2094
# ./udsexplain and scripts/story-to-svg: what they write, and what they say where something fails. `scripts/shell-tests udsexplain` runs this.

notice="$room/notice.log"
scripts/hex-to-log <examples/02-wait-notice-first.hex >"$notice"

# The programs are built before they are tested.
./udsexplain "$notice" >/dev/null || return
./udslog "$notice" >/dev/null || return

# The printed example, line by line.
story='0 ms  request 22 f1 90 sent, strict. The clock starts: deadline 50 ms.
20 ms  reply 7f 22 78: wait (notice 1). A new clock starts: deadline 50 -> 5020 ms.
900 ms  reply 62 f1 90 41 42: taken as positive (event 2). Call ends at 900 ms; deadline 5020 ms.
Check, length 4 or more: passed.
Check, length 3 or more: passed.
Check, the identifier asked for: passed.
The call ends at 900 ms. Events read: 2. Wait notices: 1.
positive 900 2 1 4142'
from_input() { ./udsexplain <"$notice"; }
try "udsexplain: a wait notice first" 0 "$story" "" ./udsexplain "$notice"
try "udsexplain: from standard input" 0 "$story" "" from_input
two() { ./udsexplain "$notice" "$notice" | grep -c 'notice.log:$'; }
try "udsexplain: two files, each name before its story" 0 2 "" two

# On every log of examples/ and of the gate's list: the last line is udslog's, and there are as many lines of events as the log has.
examples() {
    local file lines=0
    for file in examples/*.hex; do
        scripts/hex-to-log <"$file" >"$room/story.log"
        [ "$(./udsexplain "$room/story.log" | tail -n 1)" = "$(./udslog "$room/story.log")" ] || echo "$file ends in another line"
        ./udsexplain "$room/story.log" | scripts/story-to-svg | python3 -c 'import sys, xml.dom.minidom; xml.dom.minidom.parse(sys.stdin)' || echo "$file has no picture"
        lines=$((lines + 1))
    done
    echo "$lines logs"
}
try "udsexplain: every example ends in udslog's line and has a picture" 0 "21 logs" "" examples
# Each log after its length, as four bytes; each line of `expected` is udslog's.
gate_list() {
    python3 - "$(scripts/program udsexplain)" scripts/run "$1" <<'PROGRAM'
import struct, subprocess, sys

program, run, name = sys.argv[1:]
data = open(f"crates/replay/data/{name}.bin", "rb").read()
at, told = 0, 0
for line in open(f"crates/replay/data/{name}.expected"):
    (size,) = struct.unpack_from(">I", data, at)
    log = data[at + 4 : at + 4 + size]
    at += 4 + size
    story = subprocess.run([run, program], input=log, capture_output=True).stdout.decode()
    if not story.endswith("\n" + line):
        print("another last line:", log.hex(), line, story, sep="\n")
    told += 1
print(told, "logs")
PROGRAM
}
try "udsexplain: every log of the gate's list ends in its line" 0 "$(wc -l <crates/replay/data/logs.expected) logs" "" gate_list logs
try "udsexplain: every log with addresses, too" 0 "$(wc -l <crates/replay/data/addressed.expected) logs" "" gate_list addressed
wide() { for file in examples/*.hex; do scripts/hex-to-log <"$file" | ./udsexplain | sed '$d' | grep -v '\.\. (' | awk 'length > 100'; done; echo none; }
try "udsexplain: no line of an example with short bytes is wider than 100 columns" 0 none "" wide

# Sentences that are true of what they are told of. Call 15, strict, replies of 6 and of 10 bytes: both are 3 or more, and neither is whole records.
third_line() { scripts/hex-to-log | ./udsexplain | sed -n 3p; }
ten_bytes() { sed 's/^02   /03   /' examples/17-broken-tail-lenient.hex | third_line; }
six_bytes() {
    third_line <<<'0001 0F 03 0008 00 00 00 00 0000 0024 0001 0024 0006 002E 0034 00000032 00001388 00000000
        0000000C 0000 0000 0006 5902FF010203'
}
try "udsexplain: call 15, 10 bytes: its first check by its own words" 0 "Check, a length of 3 plus a multiple of 4: failed." "" ten_bytes
try "udsexplain: call 15, 6 bytes" 0 "Check, a length of 3 plus a multiple of 4: failed." "" six_bytes
# Calls 11 and 12, lenient, a number of nine bytes above 64 bits.
overflow() {
    scripts/hex-to-log <<<"0001 $1 02 0000 00 02 01 00 0003 0024 0001 0027 000B 0031 003C 00000032 00001388 00000000 100002
        0000000A 0000 0000 000B $2 90 01 0000000000000000" | ./udsexplain | sed -n '3,$p'
}
wide_number='Check, the lengths that lenient needs: passed.
Check, a block length of at most 64 bits: failed.
The call ends at 10 ms. Events read: 1. Wait notices: 0.'
try "udsexplain: call 11, lenient: a number that is too large is no length" 0 "$wide_number"$'\noverflow 10 1 0 7490010000000000000000' "" overflow 0B 74
try "udsexplain: call 12 as well" 0 "$wide_number"$'\noverflow 10 1 0 7590010000000000000000' "" overflow 0C 75
# Refusal 10 is the events', in decimal; another is what is asked.
tester() {
    scripts/hex-to-log <<<"0001 04 03 0000 00 00 00 00 0000 0024 000$1 0024 0000 00$2 00$2 00000032 00001388 00000000 $3" | ./udsexplain
}
events_refused=$'The call is not made: its list of events breaks a limit, refusal 10.\nrefused 0 0 0 0a'
try "udsexplain: an event of unknown kind" 0 "$events_refused" "" tester 1 2E '00000014 0004 0000 0000'
try "udsexplain: times that fall" 0 "$events_refused" "" tester 2 38 '00000014 0001 0000 0000 00000013 0001 0000 0000'
no_key() { scripts/hex-to-log <<<'0001 03 03 0000 02 00 00 00 0000 0024 0000 0024 0000 0024 0024 00000032 00001388 00000000' | ./udsexplain; }
try "udsexplain: a call that cannot be asked for" 0 $'The call is not made: what it asks for is not allowed, refusal 1.\nrefused 0 0 0 01' "" no_key
# A reply that a check throws away, and silence that was asked for: no answer is said to stand.
told() { scripts/hex-to-log <"$1" | ./udsexplain; }
thrown_away='0 ms  request 22 21 01 sent, strict. The clock starts: deadline 50 ms.
9 ms  reply 62 22 01 07 d0: taken as positive (event 1). Call ends at 9 ms; deadline 50 ms.
20 ms  reply 62 21 01 03 e9: never read.
Check, length 4 or more: passed.
Check, length 3 or more: passed.
Check, the identifier asked for: failed.
The call ends at 9 ms. Events read: 1. Wait notices: 0.
deviation 9 1 0 0562220107d0'
try "udsexplain: a reply that a check throws away" 0 "$thrown_away" "" told course/06-strict-on.hex
silence() { told course/03-quiet.hex | sed -n '2,$p'; }
kept='50 ms  deadline: no answer came in time, as was asked for. The call ends as suppressed.
The call ends at 50 ms. Events read: 0. Wait notices: 0.
suppressed 50 0 0 -'
try "udsexplain: silence that was asked for" 0 "$kept" "" silence

# Of a bad log no number is asked for that the field cannot hold: a count that is too large is off itself.
patched() {
    python3 -c '
import sys
log, at = bytearray(open(sys.argv[1], "rb").read()), int(sys.argv[2])
log[at : at + 2] = bytes.fromhex(sys.argv[3])
sys.stdout.buffer.write(log)' "$notice" "$@" | ./udsexplain | sed -n 1p
}
try "udsexplain: too many events" 0 "This is no log: events-count (byte 14) is 65535 and should be 0 to 6549." "" patched 14 ffff
try "udsexplain: too many reply bytes" 0 "This is no log: replies-count (byte 18) is 65535 and should be 0 to 65479." "" patched 18 ffff
few_arguments() {
    scripts/hex-to-log <<<'0001 06 21 0000 00 01 02 00 0001 0024 0000 0025 0000 0025 0025 00000032 00001388 00000000 20' | ./udsexplain | sed -n 1p
}
try "udsexplain: too few argument bytes" 0 "This is no log: arguments-count (byte 10) is 1 and should be 3 to 65499." "" few_arguments

# Input that is no log.
empty() { ./udsexplain </dev/null; }
zeros() { timeout 20 ./udsexplain </dev/zero; }
try "udsexplain: empty input" 0 $'This is no log: the file has 0 bytes and should have 36 or more.\nbadlog 0 0 0 -' "" empty
try "udsexplain: zeros without an end" 0 $'This is no log: version (byte 0) is 0 and should be 1 to 2.\nbadlog 0 0 0 -' "" zeros
cut_short() { head -c 62 "$notice" | ./udsexplain; }
try "udsexplain: a log that lost its last two bytes" 0 $'This is no log: the file has 62 bytes and should have 64.\nbadlog 0 0 0 -' "" cut_short
# Byte 42 is the offset of the first event, an idle.
off_event() { scripts/hex-to-log <examples/11-idle-does-not-restart.hex | python3 -c 'import sys; b = bytearray(sys.stdin.buffer.read()); b[43] = 5; sys.stdout.buffer.write(b)' | ./udsexplain; }
try "udsexplain: an event's field that is off" 0 $'This is no log: event 1: offset (byte 42) is 5 and should be 0.\nbadlog 0 0 0 -' "" off_event
directory() { ./udsexplain "$room"; }
missing() { ./udsexplain "$room/none"; }
full() { ./udsexplain "$notice" >/dev/full; }
try "udsexplain: a directory" 1 "" "Is a directory" directory
try "udsexplain: no such file" 1 "" "No such file" missing
try "udsexplain: full output" 1 "" "No space left on device" full
help() { ./udsexplain --help | sed -n 1p; }
try "udsexplain: --help" 0 "usage: udsexplain [FILE].." "" help
try "udsexplain: no such option" 2 "" "there is no option -x" ./udsexplain -x

# The picture: marks by kind, the end of the call at its time.
drawn() { ./udsexplain "$notice" | scripts/story-to-svg | grep -c "$1"; }
try "story-to-svg: two clocks" 0 2 "" drawn '>clock from'
try "story-to-svg: the notice is a diamond" 0 1 "" drawn 'm-8,0 l8,-8'
try "story-to-svg: one end" 0 1 "" drawn '>end<'
shown() { ./udsexplain "$notice" | scripts/story-to-svg | cmp - docs/pictures/wait-notice.svg && scripts/hex-to-log <examples/18-trolley-late-count.hex | ./udsexplain | scripts/story-to-svg | cmp - docs/pictures/trolley-late-count.svg && echo same; }
try "story-to-svg: the pictures of README are what it draws" 0 same "" shown
# The word under the double line stands clear of the last line: 20 pixels or more above it.
clear() {
    for file in examples/*.hex course/*.hex; do
        scripts/hex-to-log <"$file" | ./udsexplain | scripts/story-to-svg | python3 -c '
import re, sys
picture = sys.stdin.read()
height = int(re.search(r"height=\"(\d+)\"", picture)[1])
for y in re.findall(r"y=\"(\d+)\" text-anchor=\"middle\" font-size=\"12\"", picture):
    if int(y) > height - 14 - 20:
        print(sys.argv[1], y, height)' "$file"
    done
    echo clear
}
try "story-to-svg: no word over the last line" 0 clear "" clear
# Twenty notices: each time on the axis has its room.
twenty() {
    python3 -c '
import struct, sys
events = b"".join(struct.pack(">IHHH", 40 * i, 0, 0, 3) for i in range(1, 21))
header = struct.pack(">HBBHBBBBHHHHHHHIII", 1, 7, 3, 0xF190, 0, 0, 0, 0, 0, 36, 20, 36, 3, 236, 239, 50, 5000, 0)
sys.stdout.buffer.write(header + events + bytes.fromhex("7f2278"))' | ./udsexplain | scripts/story-to-svg | python3 -c '
import re, sys
end = 0
for x, label in re.findall(r"x=\"(\d+)\" y=\"50\" text-anchor=\"middle\">(\d+)<", sys.stdin.read()):
    if int(x) - 4 * len(label) < end:
        print("over another:", label)
    end = int(x) + 4 * len(label)
print("apart")'
}
try "story-to-svg: twenty notices, no label over another" 0 apart "" twenty
# Input that is no story: a message, status 1, and no picture.
no_story() { printf 'hoist\npositive 900 2 1 4142\n' | scripts/story-to-svg; }
nothing() { scripts/story-to-svg </dev/null; }
one_line() { ./udslog "$notice" | scripts/story-to-svg; }
binary() { scripts/story-to-svg <"$notice"; }
no_last_line() { ./udsexplain "$notice" | sed '$d' | scripts/story-to-svg; }
no_first_line() { ./udsexplain "$notice" | sed 1d | scripts/story-to-svg; }
two_stories() { cat <(./udsexplain "$notice") <(./udsexplain "$notice") | scripts/story-to-svg; }
control() { ./udsexplain "$notice" | sed '1s/$/\x01/' | scripts/story-to-svg; }
no_end() { ./udsexplain "$notice" | head -c -1 | scripts/story-to-svg; }
not_ended() { ./udsexplain "$notice" | sed '/^The call ends/d' | scripts/story-to-svg; }
try "story-to-svg: a line that is none of a story" 1 "" "no line of a story: hoist" no_story
try "story-to-svg: no story" 1 "" "there is no story" nothing
try "story-to-svg: udslog's line" 1 "" "there is no story before" one_line
try "story-to-svg: a log" 1 "" "story-to-svg: " binary
try "story-to-svg: a story without its last line" 1 "" "this is none: The call ends at" no_last_line
try "story-to-svg: a story without its first line" 1 "" "no line of a story: 20 ms" no_first_line
try "story-to-svg: two stories" 1 "" "no line of a story: positive" two_stories
try "story-to-svg: a control byte" 1 "" "control bytes" control
try "story-to-svg: a last line that is cut" 1 "" "last line is cut" no_end
try "story-to-svg: a story that does not say when the call ends" 1 "" "when the call ends" not_ended
