# shellcheck shell=bash disable=SC2154,SC2094
# What all launchers owe by scripts/launcher: a temporary folder without room, a signal, a terminal. `scripts/shell-tests launchers` runs this.

log="$room/hoist.log"
scripts/hex-to-log <examples/02-wait-notice-first.hex >"$log"
line='positive 900 2 1 4142'
(printf '\0\0\0\100' && cat "$log") >"$room/hoist.logs"
scripts/hex-to-log <examples/stores/hoist-drive.hex >"$room/hoist.store"
capture=examples/captures/a-long-record.log

# The programs are built before they are tested.
for program in udslog udslogs udsmend udsbench log2uds udsbook udsexplain; do scripts/program "$program" >/dev/null || return; done

# Books: one with a log, and one of 40,412 bytes less 72, to which that log can be added.
./udsbook new >"$room/empty.book" && ./udsbook add "$room/empty.book" <"$log" >"$room/one.book" 2>/dev/null || return
(
    echo '0001 07 03 f190 00 00 00 00 0000 0024 0000 0024 9d54 0024 9d78 00000032 00001388 00000000' | scripts/hex-to-log
    head -c 40276 /dev/zero
) | ./udsbook add "$room/empty.book" >"$room/large.book" 2>/dev/null || return

# small SIZE COMMAND..: with a temporary folder of SIZE; SIZE 0 is a folder that is full. It is mounted where only COMMAND sees it.
small() {
    mkdir -p "$room/small"
    # shellcheck disable=SC2016
    room=$room size=${1/#0/4k} full=$1 unshare --mount sh -c '
        mount -t tmpfs -o size="$size" tmpfs "$room/small" && { [ "$full" != 0 ] || head -c 4096 /dev/zero >"$room/small/all"; } &&
        TMPDIR=$room/small exec "$@"' sh "${@:2}"
}
on() { "${@:2}" <"$1"; } # on FILE COMMAND..: with this input
count() { "$@" | wc -c; }
if small 4k true 2>/dev/null; then
    none="temporary folder cannot be written: No space left on device"
    try "launchers: udslog, where the temporary folder is full" 1 "" "udslog: the $none" small 0 ./udslog "$log"
    try "launchers: udsexplain" 1 "" "udsexplain: the $none" small 0 ./udsexplain "$log"
    try "launchers: udsmend" 1 "" "udsmend: the $none" on "$log" small 0 ./udsmend
    try "launchers: udsbench" 1 "" "udsbench: the $none" small 0 ./udsbench "$room/hoist.store"
    try "launchers: udsbook new" 1 "" "udsbook: the $none" small 0 ./udsbook new
    try "launchers: udsbook add" 1 "" "udsbook: the $none" on "$log" small 0 ./udsbook add "$room/one.book"
    try "launchers: log2uds" 1 "" "log2uds: the $none" on "$capture" small 0 ./log2uds 7E0 7E8
    try "launchers: udslogs holds nothing there, and goes on" 0 "$line" "" small 0 ./udslogs "$room/hoist.logs"
    # There is room for what is read, and none for what is written.
    try "launchers: udsbook add, a book that does not fit" 1 "" "udsbook: the $none" on "$log" small 64k ./udsbook add "$room/large.book"
    try "launchers: and where it fits" 0 40412 "added 7 1" on "$log" count small 128k ./udsbook add "$room/large.book"
    head -c 62 "$log" >"$room/cut.log"
    refused() { small 12k ./udsbook add "$room/one.book" <"$room/cut.log" | cmp - "$room/one.book"; }
    try "launchers: udsbook add, a refusal is not lost" 3 "" "refused 23" refused
    try "launchers: udsbook add, no room for the old book" 1 "" "udsbook: the $none" small 4k ./udsbook add "$room/one.book"
    try "launchers: udsbook summary" 1 "" "udsbook: the $none" small 4k ./udsbook summary "$room/one.book"
    try "launchers: udsbook find" 1 "" "udsbook: the $none" small 4k ./udsbook find "$room/one.book" 7 0
    (echo '(0.000000) c 7E0#0101' && yes '(1.000000) c 7E8#03020304' | head -n 400) >"$room/many" # three pages of text, two of lines
    whole() { small 16k ./log2uds 7E0 7E8 <"$room/many" | cmp - <(./log2uds 7E0 7E8 <"$room/many") && echo same; }
    try "launchers: log2uds, all replies or none" 0 same "" whole
    try "launchers: log2uds, where they do not fit" 1 "" "log2uds: the $none" on "$room/many" small 4k ./log2uds 7E0 7E8
else
    echo "skipped: a temporary folder that is full, since nothing can be mounted here."
fi

# A signal: the launcher ends by it, nothing that it started goes on, and nothing stays in the temporary folder, though its input stays open. What it
# starts has its environment.
marked() { grep -las "mark=$room/held" /proc/[0-9]*/environ; }
runs() { # runs COMMAND: whether one of them is at this command
    local place word
    for place in $(marked); do
        # shellcheck disable=SC2053
        if IFS= read -r -d '' word <"${place%environ}cmdline" && [[ $word == $1 ]]; then return; fi
    done 2>/dev/null
    return 1
}
signalled() { # signalled SIGNAL COMMAND WORDS..: the launcher with these words, when it has come to the command
    local process status turns=0
    mkdir "$room/held" && mkfifo "$room/held.in" || return
    exec 8<>"$room/held.in"
    mark=$room/held TMPDIR=$room/held env --default-signal=HUP,INT,TERM "${@:3}" <"$room/held.in" >"$room/held.out" 8<&- &
    process=$!
    until runs "$2" || ((turns++ == 500)); do sleep 0.02; done
    kill -s "$1" "$process"
    wait "$process" 2>/dev/null
    status=$?
    marked
    ls -A "$room/held"
    cat "$room/held.out"
    rm -r "$room/held" "$room/held.in"
    return "$status"
}
at='@(*/target/bin/*|*/qemu-x86_64)'
for signal in HUP:129 INT:130 TERM:143; do
    status=${signal#*:} signal=${signal%:*}
    try "launchers: $signal ends udslogs" "$status" "" "" signalled "$signal" "$at" ./udslogs
    try "launchers: $signal ends udsbench" "$status" "" "" signalled "$signal" "$at" ./udsbench "$room/hoist.store"
    try "launchers: $signal ends log2uds" "$status" "" "" signalled "$signal" "$at" ./log2uds 7E0 7E8
    try "launchers: $signal ends udslog" "$status" "" "" signalled "$signal" head ./udslog
    try "launchers: $signal ends udsbook" "$status" "" "" signalled "$signal" "$at" ./udsbook add "$room/one.book"
done
in_place() {
    mkdir "$room/shelf" && cp "$room/one.book" "$room/shelf/week"
    signalled TERM "$at" ./udsbook add "$room/shelf/week" -
    cmp "$room/one.book" "$room/shelf/week" && ls -A "$room/shelf"
}
try "launchers: a signal leaves the book, and nothing beside it" 0 week "" in_place

# A terminal: each line is answered at once, Control-D ends, and Control-C too.
terminal() { # terminal KEY: two requests, one behind the answer of the other, and then the key
    python3 - "$1" "$room/hoist.store" <<'PROGRAM'
import os, pty, signal, sys

signal.alarm(20)
process, terminal = pty.fork()
if process == 0:
    os.execv("./udsbench", ["./udsbench", sys.argv[2]])
for request, answer in ((b"222101\n", b"62210103e8\r\n"), (b"222102\n", b"6221021388\r\n")):
    os.write(terminal, request)
    heard = b""
    while answer not in heard:
        heard += os.read(terminal, 1000)
    print("answered")
os.write(terminal, {"D": b"\4", "C": b"\3"}[sys.argv[1]])
print(os.waitstatus_to_exitcode(os.waitpid(process, 0)[1]))
PROGRAM
}
try "launchers: udsbench at a terminal, and Control-D" 0 $'answered\nanswered\n0' "" terminal D
try "launchers: udsbench at a terminal, and Control-C" 0 $'answered\nanswered\n-2' "" terminal C
