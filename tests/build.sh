# shellcheck shell=bash disable=SC2154,SC2016
# scripts/program, by ./udslog: when it builds the program, where, and what it says; and scripts/built: what it keeps of what `rt ci` built. `scripts/shell-tests
# build` runs this, in a small repository with a stand-in for rt, which notes each call, and whose program says how often it was built.

repository="$room/a repository"
tools=$room/tools
calls=$room/calls
mkdir -p "$repository/scripts" "$repository"/crates/{rules,wire,udslog,other}/src "$tools"
cp udslog "$repository/"
cp scripts/{built,launcher,program} "$repository/scripts/"
echo 'fn main() {}' >"$repository/crates/udslog/src/main.rt"
touch "$repository"/crates/{rules,wire,other}/src/{lib,more}.rt
printf '%s\n' '# the crates' 'udslog: wire io # and the kit' 'wire : rules' 'rules:' 'other: rules' >"$repository/crates.txt"
printf '#!/bin/sh\nexec "$1"\n' >"$repository/scripts/run"
echo 'kit 1' >"$tools/KIT-ID"
cat >"$tools/rt" <<SCRIPT
#!/bin/sh
[ "\$1" != doc ] || exec echo "$tools/START-HERE.md"
echo "rt \$* in \$PWD" >>"$calls"
cd ../.. || exit
for i in 1 2 3 4 5 6 7 8 9 10; do # where two launchers are tried, until the second has come
    [ -e two ] && ! grep -q 'built already' "$room/said" && sleep 0.5
done
proved() { echo "crate \$1: modules loaded=0 checked=33" && echo "logic=proved functions=1"; }
proved wire >&2
if [ -e broken ]; then
    echo "fn udslog::main: not proved" >&2
    exit 1
fi
proved udslog >&2
mkdir -p crates/udslog/out
echo 'echo build \$(wc -l <"$calls")' >crates/udslog/out/udslog
chmod +x crates/udslog/out/udslog
echo "rt: running out/udslog; to give it other input, run that file yourself" >&2
echo "a line of the program, which is no line of its launcher"
exit 3
SCRIPT
chmod +x "$repository/scripts/run" "$tools/rt"
PATH=$tools:$PATH

build() { cd "$room" && "$repository/udslog" /dev/null; } # any input does, and any folder
after() { (cd "$repository" && eval "$1") && build; } # after COMMAND: a run after that
calls() { cat "$calls"; }
call="rt run in $repository/crates/udslog"

# First, and again.
try "build: the first run builds, and says how far it is" 0 "build 1" "proving and building*wire proved (2 of 3)*udslog proved (3 of 3)" build
try "build: rt is called in the program's crate" 0 "$call" "" calls
try "build: the second run builds nothing" 0 "build 1" "" build
linked() {
    rm "$repository/target/bin/udslog" && ln -s "$repository/udslog" "$room/elsewhere"
    cd / && "$room/elsewhere" /dev/null
}
try "build: a missing program is built again, through a link too" 0 "build 2" "proving and building" linked
try "build: again in the repository" 0 "$call"$'\n'"$call" "" calls

# What changed.
try "build: a changed source" 0 "build 3" "proving and building" after 'echo 1 >>crates/rules/src/lib.rt'
try "build: a changed source with an old date" 0 "build 4" "proving and building" \
    after 'echo 2 >>crates/wire/src/lib.rt && touch -d 2001-01-01 crates/wire/src/lib.rt'
try "build: a source that is gone" 0 "build 5" "proving and building" after 'rm crates/rules/src/more.rt'
try "build: another list of crates" 0 "build 6" "proving and building" after 'echo "more: rules" >>crates.txt'
try "build: another program" 0 "build 7" "proving and building" after 'echo "echo other" >target/bin/udslog'
try "build: what rt keeps is no source" 0 "build 7" "" after 'mkdir crates/rules/out && echo kept >crates/rules/out/kept'
try "build: a source with a new date only" 0 "build 7" "" after 'touch crates/rules/src/lib.rt'
try "build: a crate that the program does not stand on" 0 "build 7" "" after 'echo 3 >>crates/other/src/lib.rt'

# Two at once.
two() {
    rm -r "$repository/target"
    touch "$repository/two"
    build &
    build
    wait
    rm "$repository/two"
}
if command -v flock >/dev/null; then
    try "build: two launchers build once" 0 "build 8"$'\n'"build 8" "the program is being built already" two
else
    echo "skipped: two launchers at once, since there is no flock on the path."
fi

# What `rt ci` built: a program and the libraries, without a call of rt.
by_ci() {
    mkdir -p crates/{rules,wire}/out/rlib/{rules,wire}.rlib
    touch crates/rules/out/rlib/rules.rlib/format crates/wire/out/rlib/wire.rlib/format
    echo 'echo built by rt ci' >crates/udslog/out/udslog
}
built() { cd "$repository" && scripts/built "$@"; }
kept() { built --keep "$(built --sum)" && build; } # kept: what is kept is what the launcher runs
try "build: what rt ci built is run, and nothing is built" 0 "built by rt ci" "" eval 'cd "$repository" && by_ci && kept'
try "build: the libraries are those of the sources" 0 "" "" built --check
try "build: a changed library" 1 "" "" eval 'echo 1 >"$repository/crates/rules/out/rlib/rules.rlib/format" && built --check'
try "build: the libraries are kept again" 0 "" "" eval 'kept >/dev/null && built --check'
try "build: a changed source" 1 "" "" eval 'echo 5 >>"$repository/crates/wire/src/lib.rt" && built --check'
try "build: the sources changed while they were proved" 1 "" "the sources changed" built --keep "$(built --sum | tr 0-9a-f 1-9a-f0)"
try "build: and then nothing is kept" 1 "" "" built --check
stamped() { touch "$repository/crates/wire/out/rlib/stamp" && kept >/dev/null && built --check; }
try "build: a library that rt check left is not taken for one of rt ci" 1 "" "" stamped

# What cannot be built or run.
try "build: what is not proved is not run" 1 "" "fn udslog::main: not proved*could not be built" after 'touch broken && echo 4 >>crates.txt'
try "build: nor the next time" 1 "" "could not be built" build
rm "$repository/broken"
runs() { printf '#!/bin/sh\n%s\n' "$1" >"$repository/scripts/run" && build; }
try "build: a program that gives no line" 1 "" "the program gave no line" runs 'true'
try "build: a program that fails" 1 "" "the program gave no line" runs 'echo half a line; exit 3'
without_rt() {
    local tool
    mkdir "$room/few"
    for tool in bash readlink; do ln -s "$(command -v "$tool")" "$room/few/"; done
    rm -r "$repository/target"
    PATH=$room/few "$repository/udslog" /dev/null
}
try "build: no rt on the path" 1 "" "no rt on the path" without_rt
copied() { # to a folder below another repository: rt would look for crates.txt there
    mkdir "$repository/below" && cp "$repository/udslog" "$repository/below/" && : >"$calls"
    "$repository/below/udslog" /dev/null || cat "$calls"
}
try "build: a copy of the launcher builds nothing elsewhere" 0 "" "no program to build" copied
PATH=${PATH#*:}
