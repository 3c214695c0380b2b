# shellcheck shell=bash disable=SC2154,SC2094
# ./udslog: what it reads, what it writes, and what it says where one of the two fails. `scripts/shell-tests udslog` runs this.

log="$room/a good.log"
scripts/hex-to-log <examples/02-wait-notice-first.hex >"$log"
line='positive 900 2 1 4142'
badlog='badlog 0 0 0 -'

# The program is built before it is tested.
./udslog </dev/null >/dev/null || return

# Reading.
input() { ./udslog <"$log"; }
pieces() { (head -c 20 "$log" && sleep 0.2 && tail -c +21 "$log") | ./udslog; }
empty() { ./udslog </dev/null; }
dash() { ./udslog - <"$log"; }
several() { ./udslog "$log" - examples/01-hoist-count.hex <"$log"; }
closed_input() { timeout 20 ./udslog <&-; }
closed_but_named() { ./udslog "$log" <&-; }
directory_as_input() { ./udslog <"$room"; }
unreadable() {
    touch "$room/secret"
    chmod 0 "$room/secret"
    if [ "$(id -u)" -eq 0 ]; then # root reads everything, unless it gives that up
        setpriv --bounding-set=-dac_override,-dac_read_search ./udslog "$room/secret"
    else
        ./udslog "$room/secret"
    fi
}
examples() { # every example by its name, in one call
    local file names=()
    for file in examples/*.hex; do
        names+=("$room/$(basename "$file")")
        scripts/hex-to-log <"$file" >"${names[-1]}"
    done
    ./udslog "${names[@]}" | sed "s|^$room/||"
}
expected=$(cd examples && for file in *.hex; do sed -n "s/^# prints: /$file: /p" "$file"; done)

try "udslog: a log as standard input" 0 "$line" "" input
try "udslog: a pipe fed in pieces" 0 "$line" "" pieces
try "udslog: a file, with a space in its name" 0 "$line" "" ./udslog "$log"
try "udslog: - is standard input" 0 "$line" "" dash
try "udslog: -- ends the options" 0 "$line" "" ./udslog -- "$log"
try "udslog: several files, each line with its name" 0 "$log: $line"$'\n'"-: $line"$'\n'"examples/01-hoist-count.hex: $badlog" "" several
try "udslog: the examples print what they say" 0 "$expected" "" examples
try "udslog: empty input is a bad log" 0 "$badlog" "" empty
try "udslog: closed input" 1 "" "standard input*Bad file descriptor" closed_input
try "udslog: closed input, where a file is named" 0 "$line" "" closed_but_named
try "udslog: a directory as standard input" 1 "" "standard input*Is a directory" directory_as_input
try "udslog: a directory" 1 "" "$room*Is a directory" ./udslog "$room"
try "udslog: a missing file" 1 "" "$room/none*No such file" ./udslog "$room/none"
try "udslog: an empty name" 1 "" "No such file" ./udslog ""
try "udslog: a file that may not be read" 1 "" "$room/secret*Permission denied" unreadable
try "udslog: a read that fails is no end" 1 "" "/proc/self/mem*Input/output error" ./udslog /proc/self/mem
try "udslog: a missing file does not keep the next from its line" 1 "$log: $line" "$room/none*No such file" ./udslog "$room/none" "$log"

# The longest log, a request of 65,499 data bytes, in version 2 of one less, which is refused as too long (08); one byte more is no log.
longest() {
    echo '0001 00 20 0022 00 00 00 00 ffdb 0024 0000 ffff 0000 ffff ffff 00000032 00001388 00000000' | scripts/hex-to-log
    head -c 65499 /dev/zero
}
longest_2() {
    echo '0002 00 20 0022 00 00 00 07e8 ffda 0025 0000 ffff 0000 ffff ffff 00000032 00001388 00000000' | scripts/hex-to-log
    head -c 65498 /dev/zero
}
longest_log() { longest | ./udslog; }
longest_log_2() { longest_2 | ./udslog; }
one_byte_more_2() { (longest_2 && printf '\0') | ./udslog; }
version_3() { (printf '\0\3' && scripts/hex-to-log <examples/18-trolley-late-count.hex | tail -c +3) | ./udslog; }
one_byte_more() { (longest && printf '\0') | ./udslog; }
try "udslog: the longest log, 65,535 bytes" 0 "refused 0 0 0 08" "" longest_log
try "udslog: one byte more is a bad log" 0 "$badlog" "" one_byte_more
try "udslog: the longest log of version 2" 0 "refused 0 0 0 08" "" longest_log_2
try "udslog: one byte more in version 2" 0 "$badlog" "" one_byte_more_2
try "udslog: there is no version 3" 0 "$badlog" "" version_3
try "udslog: input without an end is a bad log" 0 "$badlog" "" timeout 20 ./udslog /dev/zero

# Writing.
full() { ./udslog "$log" >/dev/full; }
closed() { ./udslog "$log" >&-; }
closed_pipe() {
    mkfifo "$room/pipe"
    exec 8<>"$room/pipe" 9>"$room/pipe" 8<&- # its reader is gone
    ./udslog "$log" >&9
}
full_help() { ./udslog --help >/dev/full; }
nothing_open() { timeout 20 ./udslog "$log" <&- >&- 2>&-; }
try "udslog: full output" 1 "" "output*No space left on device" full
try "udslog: closed output" 1 "" "output*Bad file descriptor" closed
try "udslog: a closed pipe" 1 "" "output*Broken pipe" closed_pipe
try "udslog: --help to full output" 1 "" "output*No space left on device" full_help
try "udslog: all three closed" 1 "" "" nothing_open

# Usage.
help() { ./udslog "$1" | sed -n '1p; s/^prints: *//p'; }
try "udslog: --help" 0 "usage: udslog [FILE].."$'\n'"$line" "" help --help
try "udslog: -h" 0 "usage: udslog [FILE].."$'\n'"$line" "" help -h
try "udslog: an unknown option" 2 "" "no option --colour*usage: udslog" ./udslog "$log" --colour

# Where it stands.
linked() {
    mkdir "$room/bin"
    ln -s "$PWD/udslog" "$room/bin/first"
    ln -s first "$room/bin/a link"
    cd "$room" && "bin/a link" "a good.log"
}
try "udslog: through links, from another folder" 0 "$line" "" linked
without_rt() { # on a processor that the program is not for
    mkdir "$room/arm"
    printf '#!/bin/sh\necho aarch64\n' >"$room/arm/uname"
    chmod +x "$room/arm/uname"
    ln -s "$(command -v bash)" "$room/arm/bash"
    PATH=$room/arm scripts/run target/bin/udslog
}
try "run: no rt on the path, on Arm" 1 "" "no rt on the path" without_rt
without_emulator() {
    printf '#!/bin/bash\necho /a/kit/START-HERE.md\n' >"$room/arm/rt" && chmod +x "$room/arm/rt"
    PATH=$room/arm scripts/run target/bin/udslog
}
emulated() {
    printf '#!/bin/bash\necho "$@"\n' >"$room/arm/qemu-x86_64" && chmod +x "$room/arm/qemu-x86_64"
    PATH=$room/arm scripts/run target/bin/udslog word
}
try "run: no emulator on the path, on Arm" 1 "" "no qemu-x86_64 on the path" without_emulator
kit=/a/kit/toolchain/lib
try "run: an emulator on the path, on Arm" 0 "$kit/ld-linux-x86-64.so.2 --library-path $kit target/bin/udslog word" "" emulated
tidy() { mkdir "$room/tmp" && TMPDIR=$room/tmp ./udslog "$log" && ls -A "$room/tmp"; }
no_folder() { TMPDIR=$room/none ./udslog "$log"; }
try "udslog: no temporary file stays" 0 "$line" "" tidy
try "udslog: no folder for temporary files" 1 "" "cannot make a temporary folder" no_folder
