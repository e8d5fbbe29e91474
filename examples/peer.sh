#!/bin/sh
# Opens the regenerated text of each example in SolveSpace, and compares the parameters that it keeps.
#
#     sh examples/peer.sh crates/slvs_tool/out/slvs_tool
#
# `solvespace-cli regenerate` solves a text anew and saves it. Each parameter has to stay within 2e-3 millimetre, and every line
# has to be known. Prints each difference; ends with 1 where there is one, else with 0. Where there is no solvespace-cli (in
# Debian the package solvespace), it says that nothing was tried.

if [ $# -ne 1 ] || [ ! -x "$1" ] || [ -d "$1" ]; then
    echo 'usage: sh examples/peer.sh PROGRAM' >&2
    exit 1
fi
if ! command -v solvespace-cli >/dev/null; then
    echo 'peer: skipped, there is no solvespace-cli'
    exit 0
fi
program=$(cd "$(dirname "$1")" && pwd)/$(basename "$1")
examples=$(cd "$(dirname "$0")" && pwd)
room=$(mktemp -d) || exit 1
trap 'rm -rf "$room"' EXIT
trap 'exit 1' HUP INT TERM
cp "$examples"/*.slvs "$room" && mkdir "$room/peer" && cp "$examples"/peg.slvs "$room/peer" && cd "$room" || exit 1

texts=0
differences=0

differs() {
    differences=$((differences + 1))
    echo "differs: $*"
}

# The parameters of two texts, side by side: prints each that is further apart or in one of them alone, and last how many there
# are. A parameter without a value is 0.
compare_parameters() {
    LC_ALL=C awk -v limit=2e-3 '
        FNR == 1 { text++ }
        { sub(/\r$/, "") }
        /^Param\.h\.v\.=/ { handle = substr($0, 12); value = 0 }
        /^Param\.val=/ { value = substr($0, 11) }
        /^AddParam$/ { known[text, handle] = 1; values[text, handle] = value; handles[handle] = 1 }
        END {
            for (handle in handles) {
                count++
                if (!((1, handle) in known) || !((2, handle) in known)) { print handle, "in one text alone"; continue }
                apart = values[1, handle] - values[2, handle]
                if (apart < 0) apart = -apart
                if (apart > limit) print handle, values[1, handle], values[2, handle]
            }
            print "parameters", count + 0
        }' "$1" "$2"
}

for name in two-points three-groups rectangle circle-diameter link-plate extrusion three-copies plane-by-lines linked-part \
    redundant-distance contradicting-distance; do
    texts=$((texts + 1))
    if ! "$program" regen "$name.slvs" "peer/$name.slvs" >"$name.out"; then
        differs "'regen $name.slvs' isn't certified"
        continue
    fi
    cp "peer/$name.slvs" "$name.ours"
    if ! solvespace-cli regenerate "peer/$name.slvs" >"$name.log" 2>&1; then
        differs "SolveSpace doesn't regenerate what 'regen $name.slvs' writes"
        continue
    fi
    ! grep -q 'Unrecognized' "$name.log" || differs "SolveSpace doesn't know all of what 'regen $name.slvs' writes"
    compare_parameters "$name.ours" "peer/$name.slvs" >"$name.apart"
    if [ "$(wc -l <"$name.apart")" -ne 1 ] || grep -q '^parameters 0$' "$name.apart"; then
        differs "parameters of 'regen $name.slvs', ours and SolveSpace's"
        cat "$name.apart"
    fi
done

echo "peer: $texts texts, $differences differences"
[ "$differences" -eq 0 ] || exit 1
