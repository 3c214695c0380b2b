# shellcheck shell=bash disable=SC2154
# README.md: each block of commands that "prints" stands behind, as it stands there, all in one folder and in their order, writes to both streams what
# the block behind that word has. (`scripts/hosts` tries the cable, and the examples in C, Rust and Python.) `scripts/shell-tests readme` runs this.

folder=$room/readme
mkdir "$folder"
for name in udslog udslogs udsmend udsbench log2uds udsbook udsexplain; do
    ln -s "$PWD/$name" "$folder/$name"
    scripts/program "$name" >/dev/null || return
done
ln -s "$PWD/scripts" "$PWD/examples" "$PWD/crates" "$folder"

# The k-th block goes to k.commands, or, where "prints" stands before it, to .prints of the block before.
awk -v to="$folder/" '
    /^## What stands proved$/ { exit }
    /^    / && !inside { k++; file = to (prints ? last ".prints" : k ".commands"); last = k }
    /^    / { inside = 1; prints = 0; print substr($0, 5) > file; next }
    { inside = 0 }
    /^prints/ { prints = 1 }' README.md
blocks=$(cd "$folder" && for file in *.prints; do echo "${file%.prints}"; done | sort -n)
as_it_stands() { cd "$folder" && bash -c "$(cat "$1.commands")" 2>&1; }
for block in $blocks; do
    ! grep -q target/ "$folder/$block.commands" || continue
    try "readme: $(tail -n 1 "$folder/$block.commands")" 0 "$(cat "$folder/$block.prints")" "" as_it_stands "$block"
done
try "readme: ten blocks or more were found" 0 "" "" test "$(wc -w <<<"$blocks")" -ge 10
