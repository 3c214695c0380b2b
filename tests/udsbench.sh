# shellcheck shell=bash disable=SC2154,SC2094
# ./udsbench: what its lines get, and what it says where a read or a write fails; scripts/cable. `scripts/shell-tests udsbench` runs this.

hex=examples/stores/hoist-drive.hex
store="$room/a hoist.store"
scripts/hex-to-log <"$hex" >"$store"

# The program is built before it is tested.
./udsbench "$store" </dev/null || return

asks() { sed -n 's/^# asks: \([0-9a-f]*\) .*/\1/p' "$hex"; }
gets() { sed -n 's/^# asks: .* gets: \([-0-9a-f]*\) .*/\1/p' "$hex"; }
ask() { printf '%s\n' "$@" | ./udsbench "$store"; }

# What lines get.
page() { ./udsbench crates/udsbench/data/store <crates/udsbench/stdin | cmp - crates/udsbench/stdout && echo same; }
exercise() { asks | ./udsbench "$store"; }
carriage_return() { printf '222101\r\n222101\r' | ./udsbench "$store"; }
no_end() { printf '222101\n222101' | ./udsbench "$store"; }
long() { (head -c 10000000 /dev/zero | tr '\0' 0 && printf '\n222101\n') | ./udsbench "$store"; }
longest() { (printf 2e2101 && head -c 8184 /dev/zero | tr '\0' 0 && printf ' 4095\r\n') | ./udsbench "$store"; }
any_byte() { (printf '\0\377\n' && head -c 3000 /dev/urandom | tr -d '\n' && echo) | ./udsbench "$store"; }
by_line() { # each line is asked once the one before has its answer
    local request answer
    coproc bench { ./udsbench "$store"; }
    while read -r request; do
        echo "$request" >&"${bench[1]}"
        read -r -t 20 answer <&"${bench[0]}" || break
        echo "$answer"
    done < <(asks)
}
try "udsbench: the rows of its page" 0 "same" "" page
try "udsbench: what the hoist drive's file says" 0 "$(gets)" "" exercise
try "udsbench: each line is answered before the next is sent" 0 "$(gets)" "" by_line
try "udsbench: a buffer as long as the reply, and one byte less" 0 $'62210103e8\nrefused 13' "" ask '222101 5' '222101 4'
try "udsbench: a refused write changes nothing" 0 $'refused 13\n62210103e8\n6e2101\n6221010000' "" ask '2e21010000 2' 222101 '2e21010000 3' 222101
try "udsbench: capital digits" 0 $'62f18c4830343137' "" ask 22F18C
try "udsbench: lines that are no request" 0 "$(yes badrequest | head -n 9)" "" ask 2221011 22g1 ' 222101' '222101 ' '222101  5' '222101 4096' '222101 00005' '222101 -1' -
try "udsbench: an empty line" 0 "-" "" ask ''
try "udsbench: a CR belongs to the line's end" 0 $'62210103e8\n62210103e8' "" carriage_return
try "udsbench: a last line without its end" 0 $'62210103e8\n62210103e8' "" no_end
try "udsbench: a line of ten million digits" 0 $'badrequest\n62210103e8' "" long
try "udsbench: the longest line" 0 "7f2e13" "" longest
try "udsbench: any bytes" 0 $'badrequest\nbadrequest' "" any_byte
try "udsbench: no line" 0 "" "" ./udsbench "$store"

# The store.
stays() { cp "$store" "$room/kept" && ./udsbench "$room/kept" < <(asks) >/dev/null && cmp "$store" "$room/kept" && ask 222102; }
piped() { echo 222101 | ./udsbench <(head -c 20 "$store" && sleep 0.2 && tail -c +21 "$store"); }
short() { echo 222101 | ./udsbench <(head -c 82 "$store"); }
endless() { echo 222101 | ./udsbench /dev/zero; }
try "udsbench: writes last until it ends, and the file stays" 0 "6221021388" "" stays
try "udsbench: a store from a pipe, in pieces" 0 "62210103e8" "" piped
try "udsbench: a store without its last byte" 3 "badstore" "" short
try "udsbench: an empty store" 3 "badstore" "" ./udsbench /dev/null
try "udsbench: a store without an end" 3 "badstore" "" endless
try "udsbench: a missing store" 1 "" "$room/none*No such file" ./udsbench "$room/none"
try "udsbench: an empty name" 1 "" "No such file" ./udsbench ""
try "udsbench: a directory as the store" 1 "" "$room*Is a directory" ./udsbench "$room"
try "udsbench: a store that cannot be read to its end" 1 "" "/proc/self/mem*Input/output error" ./udsbench /proc/self/mem

# Reading and writing.
closed_input() { timeout 20 ./udsbench "$store" <&-; }
directory() { ./udsbench "$store" <"$room"; }
full() { ask 222101 >/dev/full; }
closed() { ask 222101 >&-; }
closed_pipe() {
    mkfifo "$room/pipe-3"
    exec 8<>"$room/pipe-3" 9>"$room/pipe-3" 8<&- # its reader is gone
    ask 222101 >&9
}
one_line() { yes 222101 | timeout 20 ./udsbench "$store" 2>/dev/null | head -n 1; }
nothing_open() { timeout 20 ./udsbench "$store" <&- >&- 2>&-; }
try "udsbench: closed input" 1 "" "input*Bad file descriptor" closed_input
try "udsbench: a directory as standard input" 1 "" "input*Is a directory" directory
try "udsbench: full output" 1 "" "output*No space left on device" full
try "udsbench: closed output" 1 "" "output*Bad file descriptor" closed
try "udsbench: a closed pipe" 1 "" "output*Broken pipe" closed_pipe
try "udsbench: input without an end, whose answers nobody reads" 1 "62210103e8" "" one_line
try "udsbench: all three closed" 1 "" "" nothing_open

# Usage, and where it stands.
help() { ./udsbench "$1" | sed -n '1p; s/^prints: *//p'; }
as_shown() { echo 222101 | ./udsbench <(scripts/hex-to-log <examples/stores/hoist-drive.hex); }
try "udsbench: --help" 0 $'usage: udsbench STORE\n62210103e8' "" help --help
try "udsbench: -h" 0 $'usage: udsbench STORE\n62210103e8' "" help -h
try "udsbench: what --help shows" 0 "62210103e8" "" as_shown
try "udsbench: -- ends the options" 0 "" "" ./udsbench -- "$store"
try "udsbench: no store is wrong usage" 2 "" "usage: udsbench" ./udsbench
try "udsbench: two stores are wrong usage" 2 "" "usage: udsbench" ./udsbench "$store" "$store"
try "udsbench: an unknown option" 2 "" "no option --store*usage: udsbench" ./udsbench --store
try "udsbench: standard input is no store" 2 "" "is for the requests*usage: udsbench" ./udsbench -
linked() {
    mkdir "$room/links-3"
    ln -s "$PWD/udsbench" "$room/links-3/first"
    ln -s first "$room/links-3/a link"
    cd "$room" && echo 222101 | "links-3/a link" "a hoist.store"
}
copied() { cp udsbench "$room/" && "$room/udsbench" "$store"; }
tidy() { mkdir "$room/tmp-3" && TMPDIR=$room/tmp-3 ask 222101 && ls -A "$room/tmp-3"; }
no_folder() { TMPDIR=$room/none ask 222101; }
try "udsbench: through links, from another folder" 0 "62210103e8" "" linked
try "udsbench: a copy builds nothing elsewhere" 1 "" "no program to build" copied
try "udsbench: no temporary file stays" 0 "62210103e8" "" tidy
try "udsbench: no folder for temporary files" 1 "" "cannot make a temporary folder" no_folder

# The cable: a client that sends its second request when it has the first answer.
client='echo 2e21020fa0; read -r a; echo 222102; read -r b; echo "$a $b" >&2'
cable() { scripts/cable "$store" sh -c "$client" 2>&1; }
hung_up() { timeout 20 scripts/cable "$store" true; }
try "cable: two requests and their answers" 0 "6e2102 6221020fa0" "" cable
try "cable: a client that sends nothing" 0 "" "" hung_up
try "cable: no client is wrong usage" 2 "" "usage: cable" scripts/cable "$store"
