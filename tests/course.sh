# shellcheck shell=bash disable=SC2154
# The course: each answer is what the programs say, each log tells its story, and each story has a picture. `scripts/shell-tests course` runs this.

store="$room/hoist.store"
scripts/hex-to-log <examples/stores/hoist-drive.hex >"$store"
export store

# The programs are built before they are tested.
scripts/hex-to-log <course/01-first-reply.hex >"$room/course.log" || return
./udslog "$room/course.log" >/dev/null && ./udsexplain "$room/course.log" >/dev/null && ./udsmend <"$room/course.log" >/dev/null 2>&1 || return
./udsbench "$store" </dev/null >/dev/null || return

count=0
while IFS= read -r exercise && IFS= read -r command && IFS= read -r line && IFS= read -r words; do
    IFS= read -r _ || true
    try "course: exercise $exercise: ${command#    }" 0 "${line#    }" "" bash -c "${command#    }"
    [ -n "${words#    }" ] && count=$((count + 1))
done < <(tail -n +4 course/answers.txt)
counted() { echo "$count"; }
try "course: every answer of the list was tried" 0 15 "" counted

# Each log has a story that ends in udslog's line, and a picture.
stories() {
    local file
    for file in course/*.hex; do
        scripts/hex-to-log <"$file" >"$room/story.log" || echo "$file is no hex"
        [ "$(./udsexplain "$room/story.log" | tail -n 1)" = "$(./udslog "$room/story.log")" ] || echo "$file ends in another line"
        ./udsexplain "$room/story.log" | scripts/story-to-svg | python3 -c 'import sys, xml.dom.minidom; xml.dom.minidom.parse(sys.stdin)' || echo "$file has no picture"
    done
    ls course/*.hex | wc -l
}
try "course: every log has its story and its picture" 0 11 "" stories
texts() { ls course/[01]*.md | wc -l; }
try "course: ten exercises" 0 10 "" texts
