# shellcheck shell=bash disable=SC2154,SC2094,SC2016
# ./log2uds: what it writes, and what it says where something fails. `scripts/shell-tests log2uds` runs this.

captures=examples/captures

# The programs are built before they are tested.
./log2uds 7E0 7E8 <"$captures/count-with-a-wait.log" >/dev/null 2>&1 || return
./udslog </dev/null >/dev/null 2>&1 || return

# The captures, as the yards send them.
import() { ./log2uds 7E0 7E8 <"$captures/$1.log"; }
count=$'request 1 222101\nreply 20 7f2278\nreply 520 62210103e8'
record='62f190484f49535420445249564520303030303a'
try "log2uds: the hoist's count with a wait notice" 0 "$count" "" import count-with-a-wait
try "log2uds: a record of three frames" 0 $'request 1 22f190\nreply 14 '"$record" "" import a-long-record
try "log2uds: a lost frame is told, and the next message comes" 0 $'request 1 22f190\ndropped 4\nreply 1014 '"$record" "" import a-lost-frame

# The page's example.
page() {
    ./log2uds 7E0 7E8 <crates/log2uds/stdin
}
try "log2uds: the printed example" 0 "$(cat crates/log2uds/stdout)" "" page

# Refusals: the line alone, and the status says so.
text() { printf '%b' "$1" | ./log2uds "${2-7E0}" "${3-7E8}"; }
try "log2uds: nothing" 3 "refused 15" "" text ''
try "log2uds: a line that cannot be read" 3 "refused 14 2" "" text '(1.000000) c 7E0#0101\nx\n'
try "log2uds: a time that goes back" 3 "refused 16 2" "" text '(1.000001) c 7E0#0101\n(1.000000) c 123#\n'
try "log2uds: the first bad line decides" 3 "refused 14 1" "" text 'x\n(1.000001) c 123#\n(1.000000) c 123#\n'
try "log2uds: a reply later than the limit" 3 "refused 17" "" text '(0.000000) c 7E0#0101\n(4294967.296000) c 7E8#0102\n'
replies() { # replies COUNT SECONDS: a request, and so many replies
    echo '(0.000000) c 7E0#0101'
    yes "($2.000000) c 7E8#0102" | head -n "$1" || true
}
many() { replies "$1" 1 | ./log2uds 7E0 7E8 | tail -n 1; }
try "log2uds: 512 replies" 0 "reply 1000 02" "" many 512
refused_many() { replies 513 1 | ./log2uds 7E0 7E8; }
try "log2uds: 513 replies" 3 "refused 17" "" refused_many

# With a call: a whole log, which `udslog` judges.
for call in hoist-count hoist-count-addressed; do
    scripts/hex-to-log <"examples/calls/$call.hex" >"$room/$call"
done
judge() { ./log2uds 7E0 7E8 "$room/$1" <"$captures/$2.log" | ./udslog; }
shape() {
    ./log2uds 7E0 7E8 "$room/$1" <"$captures/$2.log" | od -An -v -tx1 | tr -d ' \n'
    echo
}
timing=000000320000138800000000
try "log2uds: the hoist's count, judged" 0 "positive 520 2 1 03e8" "request 1 222101" judge hoist-count count-with-a-wait
try "log2uds: in version 2, from the address listened to" 0 "positive 520 2 1 03e8" "request 1 222101" judge hoist-count-addressed count-with-a-wait
try "log2uds: a capture of another request deviates" 0 "deviation 14 1 0 0562f190484f49535420445249564520303030303a" "request 1 22f190" judge hoist-count a-long-record
plain="000107032101000000000000002400020024000800380040${timing}00000014000000000003000002080000000300057f227862210103e8"
try "log2uds: the log's bytes, version 1" 0 "$plain" "request 1 222101" shape hoist-count count-with-a-wait
addressed="00020703210100000007e800000025000200250008003d0045${timing}0000001400000000000307e80000020800000003000507e87f227862210103e8"
try "log2uds: the log's bytes, version 2" 0 "$addressed" "request 1 222101" shape hoist-count-addressed count-with-a-wait
long_log() { # long_log COUNT: a request, and so many replies of 4,095 bytes
    echo '(0.000000) c 7E0#0101'
    for ((i = 0; i < $1; i++)); do
        echo '(0.000000) c 7E8#1FFF010203040506'
        for ((k = 1; k <= 585; k++)); do printf '(0.000000) c 7E8#2%X01020304050607\n' $((k % 16)); done
    done
}
with_call() { ./log2uds 7E0 7E8 "$room/hoist-count" | wc -c; }
longest() { long_log 15 | with_call; }
too_long() { (long_log 16; echo '(0.000000) c 7E8#0101') | ./log2uds 7E0 7E8 "$room/hoist-count"; }
try "log2uds: 15 replies of 4,095 bytes in a log" 0 "61611" "request 1 01" longest
try "log2uds: 16 of them and one byte more are lines, and no log" 3 "" "refused 17" too_long
as_lines() { (long_log 16; echo '(0.000000) c 7E8#0101') | ./log2uds 7E0 7E8 | wc -l; }
try "log2uds: the same as lines" 0 "18" "" as_lines
refused_call() { printf 'x\n' | ./log2uds 7E0 7E8 "$room/hoist-count"; }
try "log2uds: a refusal goes to standard error, and no log out" 3 "" "refused 14 1" refused_call
none_found() { ./log2uds 7E0 7E8 "$room/hoist-count" </dev/null; }
try "log2uds: no request, no log" 3 "" "refused 15" none_found
scripts/hex-to-log <examples/01-hoist-count.hex >"$room/with-an-event"
head -c 35 "$room/hoist-count" >"$room/cut"
: >"$room/empty"
for call in with-an-event cut empty no-such-file .; do
    called() { ./log2uds 7E0 7E8 "$room/$call" </dev/null; }
    try "log2uds: '$call' is no log without events" 2 "" "usage: log2uds" called
done
try "log2uds: '-' is no file" 2 "" "standard input is for the text*usage: log2uds" ./log2uds 7E0 7E8 -
try "log2uds: four words" 2 "" "usage: log2uds" ./log2uds 7E0 7E8 "$room/hoist-count" "$room/hoist-count"

# Lines of any length, texts of any length, in pieces and without a last LF.
spaces() { printf '(1.000000)%*s%s%*s7E0#0101' 100000 '' "$(head -c 100000 /dev/zero | tr '\0' n)" 100000 '' | ./log2uds 7E0 7E8; }
try "log2uds: a line of 300,000 bytes" 0 "request 1 01" "" spaces
lines() { (yes '(1.000000) can0 123#DEADBEEF' | head -n 1000000; echo '(2.000000) c 7E0#0101') | timeout 60 ./log2uds 7E0 7E8; }
try "log2uds: a million lines before the request" 0 "request 1000001 01" "" lines
pieces() { (printf '(1.000000) c 7E0#' && sleep 0.2 && printf '0101\r') | ./log2uds 7E0 7E8; }
try "log2uds: a pipe fed in pieces, and no last LF" 0 "request 1 01" "" pieces
given_up() { # given_up COUNT LINE: a request, so many messages that are begun, and a line behind them
    echo '(1.000000) c 7E0#0101'
    yes '(2.000000) c 7E8#1008010203040506' | head -n "$1" || true
    echo "$2"
}
drops() { # drops COUNT: so many messages are given up, the last for a whole reply
    given_up "$1" '(3.000000) c 7E8#0102' | ./log2uds 7E0 7E8 >"$room/told"
    echo "$(grep -c dropped "$room/told") $(tail -n 1 "$room/told")"
}
try "log2uds: 4,096 messages that were given up" 0 "4096 reply 2000 02" "" drops 4096
try "log2uds: one more is left out, and told by its number" 0 "4096 reply 2000 02" "log2uds: 'dropped' lines left out: 1" drops 4097
try "log2uds: and so are a thousand" 0 "4096 reply 2000 02" "log2uds: 'dropped' lines left out: 1000" drops 5096
refused_drops() { given_up 5000 x | ./log2uds 7E0 7E8; }
try "log2uds: under a refusal they are not told" 3 "refused 14 5002" "" refused_drops

# A word that is wrong is told.
in_third_place() { ./log2uds 7E0 7E8 "$1" <"$captures/a-long-record.log"; }
try "log2uds: which word is no identifier" 2 "" "REPLY is '0x7E8'*usage: log2uds" ./log2uds 7E0 0x7E8
try "log2uds: a word with spaces in front" 2 "" "REQUEST is '  7E0'*usage: log2uds" ./log2uds '  7E0' 7E8
try "log2uds: a capture as CALL" 2 "" "looks like a text of candump*usage: log2uds" in_third_place "$captures/a-long-record.log"
try "log2uds: hex as CALL" 2 "" "looks like hex*hex-to-log*usage: log2uds" in_third_place examples/calls/hoist-count.hex
try "log2uds: no such CALL" 2 "" "$room/none cannot be read: No such file*usage: log2uds" in_third_place "$room/none"
# A name that bash would take for a network connection is a file's name: nobody connects.
connected() {
    python3 - "$room/hoist-count" <<'PROGRAM'
import socket, subprocess, sys, threading

call = open(sys.argv[1], "rb").read()
server = socket.create_server(("127.0.0.1", 0))
def serve():
    connection, _ = server.accept()
    print("somebody connected")
    connection.sendall(call)
    connection.close()
threading.Thread(target=serve, daemon=True).start()
name = "/dev/tcp/127.0.0.1/%d" % server.getsockname()[1]
sys.exit(subprocess.run(["./log2uds", "7E0", "7E8", name], stdin=open("examples/captures/a-long-record.log")).returncode)
PROGRAM
}
try "log2uds: /dev/tcp/.. as CALL opens no connection" 2 "" "/dev/tcp/*No such file*usage: log2uds" connected

# Interfaces are not looked at, which is told where it matters.
on_buses() { printf '(1.000000) %s 7e0#0101\n(1.000000) %s 7E8#0102\n(2.000000) can9 123#0102\n(2.000000) %s 7E8#0103\n' "$@" | ./log2uds 7E0 7E8; }
both=$'request 1 01\nreply 0 02\nreply 1000 03'
warning='interfaces are not looked at: select one with grep'
try "log2uds: one interface" 0 "$both" "" on_buses can0 can0 can0
try "log2uds: two interfaces" 0 "$both" "log2uds: frames of 7E0 and 7E8 come from can0 and can1; $warning" on_buses can0 can1 can0
try "log2uds: three" 0 "$both" "come from can0, can1 and vcan3; $warning" on_buses can0 can1 vcan3
other_frames() { printf '(1.000000) a 7E0#0101\n(1.000000) b 7E8##00102\n(1.000000) c 7E8#R\n(1.000000) d 000007E8#0102\n' | ./log2uds 7E0 7E8; }
try "log2uds: frames that are not theirs are of no interface" 0 "request 1 01" "" other_frames
judged() { printf '(1.000000) a 7E0#0322210100000000\n(1.010000) b 7E8#0562210107D0AAAA\n' | ./log2uds 7E0 7E8 "$room/hoist-count" | ./udslog; }
try "log2uds: with CALL, too" 0 "positive 10 1 0 07d0" "frames of 7E0 and 7E8 come from a and b; $warning" judged
many_buses() { for n in 1 2 3 4 5 6 7; do echo "(1.000000) can$n 7E0#0101"; done | ./log2uds 7E0 7E8; }
try "log2uds: many" 0 "request 1 01" "come from can1, can2, can3, can4 and others; $warning" many_buses

# Where the answer stands, the input may stay open; and what the program says with CALL is passed on. A stand-in for the program does what the
# first line of its input says.
stand="$room/stand-in"
mkdir -p "$stand/scripts"
cp log2uds "$stand/" && cp scripts/launcher "$stand/scripts/"
printf '#!/bin/sh\n' | tee "$stand/scripts/program" >"$stand/scripts/run"
echo 'read -r line; eval "$line"' >>"$stand/scripts/run"
chmod +x "$stand"/scripts/{program,run}
open_input() { # open_input LINE [CALL]: the line, and then an input that stays open
    mkfifo "$room/open.in"
    exec 8<>"$room/open.in"
    echo "$1" >&8
    timeout 20 "$stand/log2uds" 7E0 7E8 "${@:2}" <"$room/open.in" 8<&-
    local status=$?
    rm "$room/open.in"
    return "$status"
}
with_words() { echo "$1" | "$stand/log2uds" 7E0 7E8 "$room/hoist-count"; }
try "log2uds: a refusal, and the input stays open" 3 "refused 14 1" "" open_input 'echo "refused 14 1"'
try "log2uds: the same with CALL" 3 "" "refused 16 9" open_input 'echo "refused 16 9" >&2' "$room/hoist-count"
try "log2uds: no word at all, and the input stays open" 1 "" "the program wrote nothing" open_input true
try "log2uds: a program that fails, and the input stays open" 1 "" "the program failed" open_input 'echo "request 1 3e80"; exit 4'
try "log2uds: what is said with CALL is passed on, and is no refusal" 0 "the log" $'request 1 3e80\ndropped 4' \
    with_words 'echo "request 1 3e80" >&2; echo "dropped 4" >&2; echo "the log"'
not_to_its_end() { exec 8</proc/self/mem && ./log2uds 7E0 7E8 <&8; }
try "log2uds: a text that cannot be read to its end" 1 "" "standard input cannot be read: Input/output error" not_to_its_end

# Identifiers.
try "log2uds: identifiers of 29 bits, of either case" 0 $'request 1 01\nreply 0 02' "" text '(1.000000) c 18da10f1#0101\n(1.000000) c 18DAF110#0102\n' 18DA10f1 18daF110
try "log2uds: 7E0 is not 000007E0" 3 "refused 15" "" text '(1.000000) c 000007E0#0101\n'
for word in 7E 800 7E00 20000000 7E0# 'x 7E0' ''; do
    try "log2uds: '$word' is no identifier" 2 "" "usage: log2uds" ./log2uds "$word" 7E8
done
try "log2uds: one identifier" 2 "" "usage: log2uds" ./log2uds 7E0
try "log2uds: an option" 2 "" "usage: log2uds" ./log2uds --long 7E0

# Reading and writing.
closed_input() { timeout 20 ./log2uds 7E0 7E8 <&-; }
directory() { ./log2uds 7E0 7E8 <"$room"; }
full() { ./log2uds 7E0 7E8 <"$captures/a-long-record.log" >/dev/full; }
closed() { ./log2uds 7E0 7E8 <"$captures/a-long-record.log" >&-; }
try "log2uds: closed input" 1 "" "standard input*Bad file descriptor" closed_input
try "log2uds: a directory as standard input" 1 "" "standard input*Is a directory" directory
try "log2uds: full output" 1 "" "output*No space left on device" full
try "log2uds: closed output" 1 "" "output*Bad file descriptor" closed

# Usage, and where it stands.
help() { ./log2uds "$1" | sed -n '1p'; }
try "log2uds: --help" 0 "usage: log2uds REQUEST REPLY [CALL] < TEXT" "" help --help
copied_log2uds() { cp log2uds "$room/" && "$room/log2uds" 7E0 7E8 </dev/null; }
try "log2uds: a copy builds nothing elsewhere" 1 "" "no program to build" copied_log2uds

# With a call, standard error has what stands on standard output without it but for the replies, and nothing else.
said_beside() { { ./log2uds 7E0 7E8 "$room/hoist-count" >/dev/null; } 2>&1; }
lost_frame() { said_beside <"$captures/a-lost-frame.log"; }
tester_present() {
    printf '%s\n' '(1.000000) can0 7E0#023E800000000000' '(1.100000) can0 7E0#0322210100000000' '(1.110000) can0 7E8#0562210103E80000'
}
said_of_it() { tester_present | said_beside; }
judged_of_it() { tester_present | ./log2uds 7E0 7E8 "$room/hoist-count" | ./udslog; }
try "log2uds: with a call, a lost frame is said" 0 $'request 1 22f190\ndropped 4' "" lost_frame
try "log2uds: with a call, the request that started the clock is said" 0 "request 1 3e80" "" said_of_it
try "log2uds: a tester present before the read, judged, and said" 0 "timeout 50 0 0 -" "request 1 3e80" judged_of_it
same_without() { # same_without CAPTURE: the lines of both ways, the replies left out
    ./log2uds 7E0 7E8 <"$1" | grep -v '^reply' >"$room/others"
    said_beside <"$1" | cmp - "$room/others" && echo same
}
for capture in "$captures"/*.log; do
    try "log2uds: ${capture##*/} with a call says the lines that are no replies" 0 "same" "" same_without "$capture"
done
said_drops() { # said_drops COUNT: so many messages are given up, the last for a whole reply
    given_up "$1" '(3.000000) c 7E8#0102' | said_beside >"$room/told"
    echo "$(head -n 1 "$room/told"), $(grep -c '^dropped' "$room/told") $(tail -n 1 "$room/told")"
}
try "log2uds: with a call, 4,096 messages that were given up" 0 "request 1 01, 4096 dropped 4098" "" said_drops 4096
try "log2uds: with a call, one more is told by its number" 0 "request 1 01, 4096 log2uds: 'dropped' lines left out: 1" "" said_drops 4097
refused_beside() { given_up 5000 x | ./log2uds 7E0 7E8 "$room/hoist-count"; }
try "log2uds: with a call, under a refusal they are not told" 3 "" "refused 14 5002" refused_beside

# Words with anything beside the digits.
for word in ' 7E0' '  7E0' '     7E0' '7E0 ' 0x7E0 7E0R '    1FFFFFFF' $'7E0\r'; do
    try "log2uds: ${word@Q} is no identifier" 2 "" "usage: log2uds" ./log2uds "$word" 7E8
    try "log2uds: ${word@Q} is no identifier of replies" 2 "" "usage: log2uds" ./log2uds 7E0 "$word"
done

# The program itself reads no further than to what settles the answer: each of these texts has no end.
program=$(scripts/program log2uds)
alone() { timeout 60 scripts/run "$program" 7E0 7E8; }
behind_14() { alone < <(exec 2>/dev/null && echo x && yes); }
behind_16() { alone < <(exec 2>/dev/null && printf '(1.000001) c 123#\n(1.000000) c 123#\n' && yes ''); }
within_14() { alone < <(exec 2>/dev/null && printf '(1.000000) c 7E0#0101\n(2.000000 ' && tr '\0' x </dev/zero); }
with_nul() { alone </dev/zero; }
try "log2uds: nothing is read behind a line that can't be read" 0 "refused 14 1" "" behind_14
try "log2uds: nothing is read behind a time that goes back" 0 "refused 16 2" "" behind_16
try "log2uds: a line that can't be read need not end" 0 "refused 14 2" "" within_14
try "log2uds: zeros without end" 0 "refused 14 1" "" with_nul
# 15 and 17 are known at the end alone. Between lies more than one read.
far() { yes '(4294968.000000) c 123#' | head -n 10000 || true; }
late_14() { (printf '(0.000000) c 7E0#0101\n(4294967.296000) c 7E8#0102\n' && far && echo x) | ./log2uds 7E0 7E8; }
late_request() { (far && printf '(4294968.000000) c 7E0#0101\n') | ./log2uds 7E0 7E8; }
try "log2uds: a line that is refused comes before a reply too late" 3 "refused 14 10003" "" late_14
try "log2uds: a request behind many lines" 0 "request 10001 01" "" late_request
