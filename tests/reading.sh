# shellcheck shell=bash disable=SC2154,SC2016
# scripts/reading: what its --check finds in a copy of the sources and of docs/READING.md. `scripts/shell-tests reading` runs this.

copy=$room/reading
mkdir -p "$copy"/{scripts,docs}
cp scripts/reading "$copy/scripts/"
cp docs/READING.md "$copy/docs/"
for src in crates/*/src; do mkdir -p "$copy/${src%/src}" && cp -R "$src" "$copy/$src"; done
lib=$copy/crates/codes/src/lib.rt

# checked EDIT FILE: what the check says where FILE is edited so, once
checked() {
    cp "$2" "$room/kept"
    sed -i "$1" "$2"
    local status=0
    "$copy/scripts/reading" --check || status=$?
    cp "$room/kept" "$2"
    return "$status"
}
try "reading: every public function has its row" 0 "" "" checked '' "$lib"
try "reading: a function without a row" 1 "" "no row for codes::another" checked '$a pub fn another() {}' "$lib"
try "reading: a row of a function that is gone" 1 "" "a row for codes::name_number, which is no public function" \
    checked 's/^pub fn name_number/fn name_number/' "$lib"
try "reading: a row twice" 1 "" "more than one row for codes::name_number" checked '/^| `codes::name_number`/p' "$copy/docs/READING.md"
try "reading: a module that is not shown" 1 "" "a row for exchange::events::event_at" \
    checked 's/^pub mod events/mod events/' "$copy/crates/exchange/src/lib.rt"
try "reading: the list" 0 "codes::name_number" "" grep '^codes::' <("$copy/scripts/reading")
try "reading: another word" 2 "" "usage: reading" "$copy/scripts/reading" --list
