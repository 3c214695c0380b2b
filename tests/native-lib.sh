# shellcheck shell=bash disable=SC2154,SC2016
# scripts/native-lib: that it builds only where something changed, and each crate of exports of the door. `scripts/shell-tests native-lib` runs this, in a small
# repository with stand-ins for rt, which notes each build of the door once, for the kit's compiler, its clang and its llvm-ar, for cc and for uname.

library="$room/a library"
stand_ins=$room/native-tools
builds=$room/builds
doors=(host alfid_door line_door step_door tick_door begin_door begin_alfid_door)
mkdir -p "$library/scripts" "$stand_ins" "$room"/kit/{bin,toolchain/bin,toolchain/lib}
for crate in rules "${doors[@]}" "${doors[@]/%/_c}" door door_c other; do
    mkdir -p "$library/crates/$crate"/{src,must-fail} && touch "$library/crates/$crate/src/lib.rt"
done
cp scripts/{native-lib,built,program} "$library/scripts/"
echo 'kit 1' >"$room/kit/KIT-ID"
printf '%s\n' '# the crates' 'host: rules # and no other' 'alfid_door: host' 'line_door: rules' 'step_door: host' 'tick_door: step_door' 'begin_door: step_door' 'begin_alfid_door: step_door' \
    "${doors[@]/%/_c staticlib: host}" 'door: rules' 'door_c staticlib: door' 'rules:' 'other: rules' >"$library/crates.txt"
cat >"$stand_ins/rt" <<SCRIPT
#!/bin/sh
case \$1 in
doc) echo "$room/kit/START-HERE.md" ;;
lib)
    crate=\${PWD##*/}
    case \$crate in host_c | door_c) echo "\$crate" >>"$builds" ;; esac
    if [ -e ../../broken ]; then
        echo "fn \$crate::f: not proved"
        exit 1
    fi
    mkdir -p out
    [ ! -e ../../slow ] || sleep 0.1
    echo "\$crate \$(wc -l <"$builds")" >"out/lib\$crate.a"
    ;;
esac
SCRIPT
printf '#!/bin/sh\necho "${MACHINE-x86_64}"\n' >"$stand_ins/uname"
cat >"$stand_ins/cc" <<SCRIPT
#!/bin/sh
while [ \$# -gt 0 ]; do
    [ "\$1" != -o ] || echo "shared \$(wc -l <"$builds")" >"\$2"
    shift
done
SCRIPT
# The kit's compiler writes whom it compiled for, and has the clang that it is given compile a module; that clang writes what it was told.
cat >"$room/kit/bin/rattle" <<'SCRIPT'
#!/bin/sh
while [ $# -gt 0 ]; do
    case $1 in
    --help) exit ;;
    --crate-name) crate=$2 ;;
    --toolchain) tools=$2 ;;
    --target) target=$2 ;;
    -o) out=$2 ;;
    esac
    shift
done
at=$(mktemp -d "${0%/*}/XXXXXX") && cd "$at" || exit
echo "$crate" >module.bc
"$tools/bin/clang" --target=x86_64-unknown-linux-gnu -march=x86-64 -mllvm -no-x86-frames -mllvm -less=false -Werror -c -x ir module.bc -o module.o -fPIC -O3
rm -r "$at"
echo "$crate by the compiler${target:+ for $target}" >"$out"
SCRIPT
cat >"$room/kit/toolchain/bin/clang" <<'SCRIPT'
#!/bin/sh
told=$*
while [ $# -gt 0 ]; do
    case $1 in
    *.bc) module=$1 ;;
    -o) out=$2 ;;
    esac
    shift
done
echo "$(cat "$module") ${told%% -c -x ir *}" >"$out"
SCRIPT
printf '#!/bin/sh\narchive=$2\nshift 2\ncat "$@" >"$archive"\n' >"$room/kit/toolchain/bin/llvm-ar"
chmod +x "$stand_ins"/* "$room"/kit/bin/* "$room"/kit/toolchain/bin/*

native() { PATH=$stand_ins:$PATH "$library/scripts/native-lib" "$@"; }
archive() { native "$@" && (cd "$library" && cat "$(native "$@")"); }
native_after() { (cd "$library" && eval "$1") && archive "${@:2}"; } # native_after COMMAND [CRATE]: a run after that
each() { printf "%s $2\\n" "${doors[@]/%/_c}"; } # each - WORDS: a line for each crate of exports
built() { echo "target/native/libbintrochis.a" && each - "$1"; } # built N: what `archive` prints of the door's N-th build
other=target/native/libdoor.a
try "native-lib: the first run builds" 0 "$(built 1)" "" archive
try "native-lib: the second builds nothing" 0 "$(built 1)" "" archive
try "native-lib: the library beside the archive" 0 "shared 1" "" cat "$library/target/native/libbintrochis.so"
try "native-lib: another library has an archive of its own" 0 "$other"$'\n'"door_c 2" "" archive door
try "native-lib: a library without exports" 2 "" "no crate of exports other_c" native other
try "native-lib: a changed source" 0 "$(built 3)" "" native_after 'echo 1 >>crates/rules/src/lib.rt'
try "native-lib: a changed source with an old date" 0 "$(built 4)" "" native_after 'echo 2 >>crates/host/src/lib.rt && touch -d 2001-01-01 crates/host/src/lib.rt'
try "native-lib: a source that it does not stand on" 0 "$(built 4)" "" native_after 'echo 3 >>crates/other/src/lib.rt'
try "native-lib: a must-fail edit is no source" 0 "$(built 4)" "" native_after 'echo 4 >>crates/rules/must-fail/one.edit'
try "native-lib: what rt keeps is no source" 0 "$(built 4)" "" native_after 'mkdir crates/rules/out && echo 4 >crates/rules/out/kept'
try "native-lib: a new source" 0 "$(built 5)" "" native_after 'echo 5 >crates/rules/src/more.rt'
try "native-lib: a source that is gone" 0 "$(built 6)" "" native_after 'rm crates/rules/src/more.rt'
# The libraries are proved; what stands over them is compiled.
compiled() { echo "target/native/libbintrochis.a" && each - 'by the compiler for x86_64-unknown-linux-gnu'; }
try "native-lib: a missing archive" 0 "$(compiled)" "" native_after 'rm target/native/libbintrochis.a'
try "native-lib: a changed archive" 0 "$(compiled)" "" native_after 'echo 6 >>target/native/libbintrochis.a'
try "native-lib: a missing library" 0 "$(compiled)" "" native_after 'rm target/native/libbintrochis.so'
try "native-lib: another kit" 0 "$(built 7)" "" native_after "echo 'kit 2' >'$room/kit/KIT-ID'"
try "native-lib: what cannot be proved is not built" 1 "" "host_c::f: not proved" native_after 'touch broken && echo 7 >>crates/rules/src/lib.rt'
try "native-lib: and is tried again" 0 "$(built 9)" "" native_after 'rm broken'

# For another processor: the kit's compiler is called for one that it knows; for others its clang compiles the module that the compiler gave it.
native_arm=target/native-aarch64/libbintrochis.a
for_arm() { echo "$native_arm" && each - 'by the compiler for aarch64-unknown-linux-gnu'; }
try "native-lib: for another processor" 0 "$(for_arm)" "" archive --for aarch64
try "native-lib: which leaves this processor's alone" 0 "$(built 9)" "" archive
try "native-lib: for this processor by its name" 0 "$(built 9)" "" archive --for x86_64
try "native-lib: for no processor" 2 "" "usage: native-lib" native --for
without_system() { echo target/native-thumbv7em/libbintrochis.a && each - '--target=thumbv7em-unknown-none-eabi -mllvm -less=false -O3 -Wno-override-module'; }
for_armv7() { echo target/native-armv7/libbintrochis.a && each - '--target=armv7-unknown-linux-gnu -fPIC -mllvm -less=false -O3 -Wno-override-module'; }
try "native-lib: for a processor that the compiler does not know" 0 "$(without_system)" "" archive --for thumbv7em
without_compiler() { # its `--help` is there, and nothing else
    (cd "$library" && eval "$1") && mv "$room/kit/bin/rattle" "$room/rattle" && printf '#!/bin/sh\n[ "$2" = --help ]\n' >"$room/kit/bin/rattle" && chmod +x "$room/kit/bin/rattle"
    archive --for armv7
    local status=$?
    mv "$room/rattle" "$room/kit/bin/rattle"
    return "$status"
}
try "native-lib: and for another, by the same modules" 0 "$(for_armv7)" "" without_compiler :
try "native-lib: a changed module is made anew, here without the compiler" 1 "" "" without_compiler 'echo 8 >>target/modules/host_c.bc && rm -r target/native-armv7'
try "native-lib: on a machine where the kit's compiler does not run" 1 "" "no compiler for programs of aarch64" \
    eval 'rm "$library/target/native/libbintrochis.a"; chmod -x "$room/kit/bin/rattle"; MACHINE=aarch64 native; s=$?; chmod +x "$room/kit/bin/rattle"; (exit "$s")'

# Over what `rt ci` has just proved: the libraries stay as they are, and no call of rt builds anything.
by_ci() { # by_ci COMMAND: `rt ci`, as it were, behind that
    (cd "$library" && eval "$1" && mkdir -p crates/{rules,host,door}/out/rlib/library.rlib && touch crates/{rules,host,door}/out/rlib/library.rlib/format &&
        mkdir -p crates/program/{src,out} && touch crates/program/src/main.rt crates/program/out/program &&
        PATH=$stand_ins:$PATH && scripts/built --keep "$(scripts/built --sum)")
}
over_ci() { by_ci "$1" && archive; }
try "native-lib: over what rt ci proved" 0 "$(compiled)" "" \
    over_ci 'echo 9 >>crates/rules/src/lib.rt'
try "native-lib: and after a change by rt lib" 0 "$(built 10)" "" native_after 'echo 10 >>crates/rules/src/lib.rt'

# A processor on which nobody tried the library.
try "native-lib: for a processor that was never tried" 2 "" "never tried on the processor i686" native --for i686
try "native-lib: on a processor that was never tried" 2 "" "never tried on the processor riscv64" env MACHINE=riscv64 PATH="$stand_ins:$PATH" "$library/scripts/native-lib"
try "native-lib: and nothing is there for it" 1 "" "" test -e "$library/target/native-i686"

# Two at once.
if command -v flock >/dev/null; then
    at_once() {
        (cd "$library" && touch slow && echo 11 >>crates/rules/src/lib.rt)
        (archive & archive && wait) | sort -u
    }
    try "native-lib: two at once build one after the other, and once" 0 "$(built 11 | sort)" "" at_once
    rm "$library/slow"
else
    echo "skipped: two native-lib at once, since there is no flock on the path."
fi

# The build script of the bindings for Rust asks native-lib, so that it links no archive that is older than its sources.
if command -v rustc >/dev/null; then
    mkdir -p "$library/bindings/rust"
    CARGO_MANIFEST_DIR=$library/bindings/rust rustc --edition 2021 -o "$room/build-script" bindings/rust/build.rs
    linked() { # linked COMMAND: what the build script names after that, and the archive
        (cd "$library" && eval "$1") && HOST=x86_64-linux TARGET=x86_64-linux PATH=$stand_ins:$PATH "$room/build-script" | sed -n 's/^cargo:rustc-link-lib=//p' &&
            cat "$library/target/native/libbintrochis.a"
    }
    try "native-lib: cargo's build of a changed source" 0 "static:+verbatim=libbintrochis.a"$'\n'"$(built 12 | tail -n +2)" "" linked 'echo 12 >>crates/rules/src/lib.rt'
    try "native-lib: cargo's build where nothing changed" 0 "static:+verbatim=libbintrochis.a"$'\n'"$(built 12 | tail -n +2)" "" linked :
else
    echo "skipped: the build script of the bindings for Rust, since there is no rustc on the path."
fi
