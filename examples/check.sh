#!/bin/sh
# Runs a program on the examples, and compares what it prints, what it writes and how it ends.
#
#     sh examples/check.sh crates/slvs_tool/out/slvs_tool
#
# Works in a folder of its own, and leaves nothing. Prints each difference; ends with 1 where there is one, else with 0.

if [ $# -ne 1 ] || [ ! -x "$1" ] || [ -d "$1" ]; then
    echo 'usage: sh examples/check.sh PROGRAM' >&2
    exit 1
fi
program=$(cd "$(dirname "$1")" && pwd)/$(basename "$1")
examples=$(cd "$(dirname "$0")" && pwd)
expected=$examples/expected
room=$(mktemp -d) || exit 1
trap 'rm -rf "$room"' EXIT
trap 'exit 1' HUP INT TERM
mkdir "$room/files" && cp "$examples"/*.slvs "$room/files" && cd "$room/files" || exit 1

runs=0
differences=0

differs() {
    differences=$((differences + 1))
    echo "differs: $*"
}

# The file holds the expected bytes.
same() {
    if [ ! -f "$1" ] || [ ! -f "$2" ]; then
        differs "$3: there is none"
    elif ! cmp -s "$1" "$2"; then
        differs "$3"
        diff "$1" "$2" | head -n 20
    fi
}

# The program, on words, prints a file and ends with a status.
prints() {
    wanted=$1
    status=$2
    shift 2
    runs=$((runs + 1))
    "$program" "$@" >"$room/out" 2>"$room/err"
    ended=$?
    [ "$ended" -eq "$status" ] || differs "'$*' ends with $ended and not with $status"
    same "$wanted" "$room/out" "what '$*' prints"
    [ ! -s "$room/err" ] || differs "'$*' writes to standard error"
}

# The program prints one line.
says() {
    printf '%s\n' "$1" >"$room/line"
    shift
    prints "$room/line" "$@"
}

# No run that is refused writes OUT.
unwritten() {
    [ ! -e "$1" ] || differs "$1 is written"
}

# An example that is reported: `regen` prints the same, and its OUT is its own regeneration.
reported() {
    prints "$expected/$1.report" "$2" report "$1.slvs"
    prints "$expected/$1.report" "$2" regen "$1.slvs" once
    prints "$expected/$1.report" "$2" regen once twice
    same once twice "'$1.slvs' regenerated twice"
    [ ! -e "$expected/$1.regen" ] || same "$expected/$1.regen" once "what 'regen $1.slvs' writes"
    rm -f once twice
}

# The same on the finer grid.
finely() {
    prints "$expected/$1.fine.report" "$2" fine report "$1.slvs"
    prints "$expected/$1.fine.report" "$2" fine regen "$1.slvs" once
    prints "$expected/$1.fine.report" "$2" fine regen once twice
    same once twice "'$1.slvs' regenerated twice on the finer grid"
    rm -f once twice
}

# An example that is refused.
refused() {
    prints "$expected/$1.report" "$2" report "$1.slvs"
    prints "$expected/$1.report" "$2" regen "$1.slvs" out
    unwritten out
}

# ---- the examples

for file in *.slvs; do
    [ -e "$expected/${file%.slvs}.report" ] || differs "nothing is expected of '$file'"
done

for name in two-points three-groups rectangle circle-diameter link-plate extrusion three-copies plane-by-lines peg linked-part \
    redundant-distance contradicting-distance; do
    reported "$name" 0
done
for name in degenerate-plane impossible-triangle too-far; do
    reported "$name" 10
done
for name in two-points rectangle; do
    finely "$name" 0
done
refused missing-point 2
refused missing-part 3

# The linked part is what `regen` makes of the circle; and a model may be its own OUT.
prints "$expected/circle-diameter.report" 0 regen circle-diameter.slvs out
same peg.slvs out "'peg.slvs' beside the regenerated 'circle-diameter.slvs'"
prints "$expected/peg.report" 0 regen out out
same peg.slvs out "'peg.slvs' regenerated in its place"
rm -f out

# ---- `dxf`

prints "$expected/extrusion.report" 0 dxf extrusion.slvs 00000002 out
same "$expected/extrusion.dxf" out "what 'dxf extrusion.slvs 00000002' writes"
prints "$expected/link-plate.report" 0 dxf link-plate.slvs 2 out
same "$expected/link-plate.dxf" out "what 'dxf link-plate.slvs 2' writes"
rm -f out
says 'fault group 00000009' 9 dxf extrusion.slvs 9 out
unwritten out
says 'fault words' 1 dxf extrusion.slvs 00000002
says 'fault words' 1 dxf extrusion.slvs group out

# ---- `make`

says 'made 1 groups 3 certified 3 unknowns 10 retained 4 free 6' 0 make 1 once
says 'made 1 groups 3 certified 3 unknowns 10 retained 4 free 6' 0 make 1 twice
same once twice "'make 1' made twice"
"$program" report once >"$room/report"
prints "$room/report" 0 regen once twice
same once twice "'make 1' regenerated"
says 'made 11 groups 3 certified 3 unknowns 52 retained 46 free 6' 0 make 11 once
says 'made 90 groups 3 certified 3 unknowns 382 retained 376 free 6' 0 make 90 once
rm -f once twice
rm -f once twice
for count in 0 91 01 ten; do
    says 'fault words' 1 make "$count" out
    unwritten out
done

# ---- the statuses that come of words, files and output

# 1: the words are no command
says 'fault words' 1
says 'fault words' 1 report
says 'fault words' 1 report two-points.slvs out
says 'fault words' 1 regen two-points.slvs
says 'fault words' 1 two-points.slvs
says 'fault words' 1 fine
says 'fault words' 1 fine fine report two-points.slvs
says 'fault words' 1 Report two-points.slvs

# 2: the model is refused, or a part is
: >empty.slvs
says 'fault model bad header' 2 report empty.slvs
mkdir parts
sed 's/=peg\.slvs/=empty.slvs/' linked-part.slvs >empty-part.slvs
says 'fault part empty.slvs bad header' 2 report empty-part.slvs

# 3: the model is absent, or a part is
says 'fault absent nothing.slvs' 3 report nothing.slvs
says 'fault absent nothing.slvs' 3 regen nothing.slvs out
unwritten out

# 4: a folder in the place of the model, or of a part
says 'fault read parts' 4 report parts
sed 's/=peg\.slvs/=parts/' linked-part.slvs >folder-part.slvs
says 'fault read parts' 4 report folder-part.slvs

# 5: a folder in the place of OUT
{ cat "$expected/two-points.report" && echo 'fault write parts'; } >"$room/unwritten"
prints "$room/unwritten" 5 regen two-points.slvs parts

# 6: standard output is closed, or there is no room behind it; OUT is not written then
runs=$((runs + 1))
"$program" regen two-points.slvs out >&- 2>"$room/err"
ended=$?
[ "$ended" -eq 6 ] || differs "with standard output closed 'regen' ends with $ended and not with 6"
unwritten out
if [ -c /dev/full ]; then
    runs=$((runs + 1))
    "$program" regen two-points.slvs out >/dev/full 2>"$room/err"
    ended=$?
    [ "$ended" -eq 6 ] || differs "with no room for standard output 'regen' ends with $ended and not with 6"
    unwritten out
fi

# Whatever was run, the examples are as they were.
for file in "$examples"/*.slvs; do
    same "$file" "$(basename "$file")" "'$(basename "$file")' itself"
done

echo "examples: $runs runs, $differences differences"
[ "$differences" -eq 0 ] || exit 1
