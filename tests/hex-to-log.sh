# shellcheck shell=bash disable=SC2154
# scripts/hex-to-log: commented hex to bytes. `scripts/shell-tests hex-to-log` runs this.

hex() { # hex TEXT: the bytes that hex-to-log makes of it, as od writes them
    printf '%b' "$1" | scripts/hex-to-log | od -An -v -tx1
}

try "hex-to-log: bytes, also 00, 0a, 25 and 5c" 0 " 00 0a 25 5c ff" "" hex '00 0a255c FF\n'
try "hex-to-log: uppercase and lowercase" 0 " ab cd ef ab" "" hex 'aB CdEF Ab\n'
try "hex-to-log: comments" 0 " 01 02" "" hex '# a comment, no hex\n01 # more # of it\n\n02#\n'
try "hex-to-log: CRLF, tabs, and a last line without its end" 0 " 01 02 03" "" hex '01\t02 # x\r\n\r\n03'
try "hex-to-log: nothing in, nothing out" 0 "" "" hex ''
try "hex-to-log: an odd number of digits, with its line, and nothing written" 1 "" "line 3: 123 has an odd number of digits" hex '01\n\n02 123\n'
try "hex-to-log: a digit alone between spaces" 1 "" "line 1: 1 has an odd number of digits" hex '1 2\n'
try "hex-to-log: another character, with its line, and nothing written" 1 "" "line 2: 0x22 is no hex" hex '01\n0x22\n'
try "hex-to-log: each bad line is told" 1 "" "line 1: *line 3: " hex 'xx\n00\nyy\n'

directory() { scripts/hex-to-log </; }
closed() { scripts/hex-to-log <&-; }
full() { echo 00 | scripts/hex-to-log >/dev/full; }
try "hex-to-log: a directory" 1 "" "Is a directory" directory
try "hex-to-log: closed input" 1 "" "Bad file descriptor" closed
try "hex-to-log: full output" 1 "" "rror" full
try "hex-to-log: a word after it is wrong usage" 2 "" "usage: hex-to-log" scripts/hex-to-log examples/01-hoist-count.hex
