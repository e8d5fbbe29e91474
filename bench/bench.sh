#!/bin/sh
# Times a program on large texts, beside SolveSpace where there is a solvespace-cli.
#
#     sh bench/bench.sh crates/slvs_tool/out/slvs_tool [RUNS]
#
# Of each text the program's `regen` and `report` are run RUNS times (3, if nothing is said), and `solvespace-cli regenerate`
# as often, which does what `regen` does. A line tells the least of the runs: seconds of the wall clock, seconds of the processor
# (user and system), and the greatest memory in 10^6 bytes. Processor and memory need GNU time as /usr/bin/time. A run that takes
# over 600 seconds is stopped, where there is a `timeout`. The texts need 60 MB in the folder for temporary files.

if [ $# -lt 1 ] || [ $# -gt 2 ] || [ ! -x "$1" ] || [ -d "$1" ]; then
    echo 'usage: sh bench/bench.sh PROGRAM [RUNS]' >&2
    exit 1
fi
program=$(cd "$(dirname "$1")" && pwd)/$(basename "$1")
runs=${2:-3}
room=$(mktemp -d) || exit 1
trap 'rm -rf "$room"' EXIT
trap 'exit 1' HUP INT TERM
cd "$room" || exit 1

if /usr/bin/time -f '%e %U %S %M' -o time.txt true 2>/dev/null; then
    has_time=1
else
    has_time=0
fi
stopper=
if command -v timeout >/dev/null; then
    stopper='timeout 600'
fi

# ---- the texts

header() {
    printf '\261\262\263SolveSpaceREVa\n\n\n'
}

# What the texts have in common, for awk: handles, quantities and records. Groups are printed at once; parameters, requests and
# constraints are kept, and `rest` prints them.
records='
function handle(high, low) { return sprintf("%04x%04x", high, low) }
function of_request(request, item) { return handle(request, item) }
function of_group(group, item) { return handle(32768 + group, item) }
function quantity(whole) { return sprintf("%d.00000000000000000000", whole) }
function group(number, lines) { print "Group.h.v=" handle(0, number) "\n" lines "AddGroup\n" }
function param(name, text) { params = params "Param.h.v.=" name "\nParam.val=" text "\nAddParam\n\n" }
function request(number, kind, plane, owner) {
    requests = requests "Request.h.v=" handle(0, number) "\nRequest.type=" kind "\n" \
        (plane == "" ? "" : "Request.workplane.v=" plane "\n") "Request.group.v=" handle(0, owner) "\nAddRequest\n\n"
}
function constraint(kind, plane, owner, value, names) {
    constraints = constraints "Constraint.h.v=" handle(0, ++constraint_count) "\nConstraint.type=" kind "\nConstraint.group.v=" \
        handle(0, owner) "\nConstraint.workplane.v=" plane "\n" (value == "" ? "" : "Constraint.valA=" value "\n") names \
        "AddConstraint\n\n"
}
function points(first, second) { return "Constraint.ptA.v=" first "\nConstraint.ptB.v=" second "\n" }
function lines(first, second) { return "Constraint.entityA.v=" first "\nConstraint.entityB.v=" second "\n" }
function references(i) {
    group(1, "Group.type=5000\n")
    for (i = 1; i <= 3; i++) request(i, 100, "", 1)
}
function rest() { printf "%s%s%s", params, requests, constraints }
'

# A chain of lines at right angles, each 10 long, in a plane; its extrusion by 5; and three copies of that along 1000.
# chain LINES
chain() {
    header
    awk -v count="$1" "$records"'
    BEGIN {
        references()
        plane = of_group(2, 0)
        group(2, "Group.type=5001\nGroup.order=1\nGroup.subtype=6000\nGroup.predef.q.w=" quantity(1) \
            "\nGroup.predef.origin.v=00010001\n")
        group(3, "Group.type=5100\nGroup.order=2\nGroup.opA.v=00000002\nGroup.subtype=7000\nGroup.predef.entityB.v=" plane "\n")
        group(4, "Group.type=5201\nGroup.order=3\nGroup.opA.v=00000003\nGroup.valA=" quantity(3) \
            "\nGroup.subtype=7000\nGroup.predef.entityB.v=" plane "\n")
        for (i = 1; i <= count; i++) {
            r = 3 + i
            request(r, 200, plane, 2)
            if (u) param(of_request(r, 16), quantity(u))
            if (v) param(of_request(r, 17), quantity(v))
            if (i % 2) u += 10; else v += 10
            if (u) param(of_request(r, 19), quantity(u))
            if (v) param(of_request(r, 20), quantity(v))
            constraint(30, plane, 2, quantity(10), points(of_request(r, 1), of_request(r, 2)))
            if (i > 1) {
                constraint(20, plane, 2, "", points(of_request(r - 1, 2), of_request(r, 1)))
                if ((i - 1) % 10) constraint(122, plane, 2, "", lines(of_request(r - 1, 0), of_request(r, 0)))
                else constraint(120, plane, 2, quantity(90), lines(of_request(r - 1, 0), of_request(r, 0)))
            }
        }
        param(of_group(3, 2), quantity(5))
        param(of_group(4, 0), quantity(1000))
        rest()
    }'
}

# Groups of points in a zigzag, each point 5 from the one before.
# zigzags GROUPS POINTS
zigzags() {
    header
    awk -v groups="$1" -v count="$2" "$records"'
    BEGIN {
        references()
        r = 4
        for (g = 2; g <= groups + 1; g++) {
            group(g, "Group.type=5000\nGroup.order=" g "\n")
            for (i = 0; i < count; i++) {
                request(r, 101, "00010000", g)
                if (i) param(of_request(r, 16), quantity(3 * i))
                if (i % 2) param(of_request(r, 17), quantity(4))
                if (i) constraint(30, "00010000", g, quantity(5), points(of_request(r - 1, 0), of_request(r, 0)))
                r++
            }
            # one group at a time, so that no string grows long
            params_of[g] = params; requests_of[g] = requests; constraints_of[g] = constraints
            params = requests = constraints = ""
        }
        for (g = 2; g <= groups + 1; g++) printf "%s", params_of[g]
        for (g = 2; g <= groups + 1; g++) printf "%s", requests_of[g]
        for (g = 2; g <= groups + 1; g++) printf "%s", constraints_of[g]
    }'
}

# Points in a zigzag, each with its distance to the one before and to the one before that, up to so many distances in all.
# braced POINTS ROWS
braced() {
    header
    awk -v count="$1" -v rows="$2" "$records"'
    BEGIN {
        references()
        group(2, "Group.type=5000\nGroup.order=1\n")
        for (i = 0; i < count; i++) {
            r = 4 + i
            request(r, 101, "00010000", 2)
            if (i) param(of_request(r, 16), quantity(i))
            if (i % 2) param(of_request(r, 17), "0.75000000000000000000")
            if (i > 0 && k++ < rows) constraint(30, "00010000", 2, "1.25000000000000000000", points(of_request(r - 1, 0), of_request(r, 0)))
            if (i > 1 && k++ < rows) constraint(30, "00010000", 2, quantity(2), points(of_request(r - 2, 0), of_request(r, 0)))
        }
        rest()
    }'
}

# Style records, which nothing reads, up to so many bytes; and the references.
# unread BYTES
unread() {
    header
    awk -v bytes="$1" "$records"'
    BEGIN {
        references()
        rest()
        for (i = 256; written < bytes; i++) {
            text = sprintf("Style.h.v=%08x\nStyle.name=s%08x\nStyle.width=1.00000000000000000000\nAddStyle\n\n", i, i)
            written += length(text)
            printf "%s", text
        }
    }'
}

# ---- the clock

# One run: its wall clock, user and system seconds, its memory in KiB ('-' where that isn't known), and its status.
once() {
    if [ "$has_time" -eq 1 ]; then
        /usr/bin/time -q -f '%e %U %S %M' -o time.txt $stopper "$@" >out.txt 2>err.txt
        status=$?
        echo "$(tail -n 1 time.txt) $status"
    else
        begun=$(date +%s)
        $stopper "$@" >out.txt 2>err.txt
        status=$?
        echo "$(($(date +%s) - begun)) - - - $status"
    fi
}

# The least of several runs over fresh copies of the text.
measure() {
    text=$1
    label=$2
    shift 2
    : >runs.txt
    run=0
    while [ "$run" -lt "$runs" ]; do
        run=$((run + 1))
        cp "$text.slvs" model.slvs
        once "$@" >>runs.txt
    done
    LC_ALL=C awk -v text="$text" -v label="$label" '
        NR == 1 || $1 < wall { wall = $1 }
        $2 != "-" && (NR == 1 || $2 + $3 < processor) { processor = $2 + $3 }
        $4 > memory { memory = $4 }
        $5 != 0 { status = $5 }
        END {
            known = $2 != "-"
            printf "%-10s  %-10s  %8.2f s  %8s s  %6s MB%s\n", text, label, wall, known ? sprintf("%.2f", processor) : "-", \
                known ? sprintf("%.0f", memory * 1.024 / 1000) : "-", status ? "  ended with " status : ""
        }' runs.txt
}

chain 90 >chain.slvs
zigzags 999 32 >groups.slvs
zigzags 1 200 >points.slvs
braced 200 390 >rows.slvs
unread 33554432 >unread.slvs

printf '%-10s  %-10s  %10s  %10s  %9s\n' text program wall processor memory
for text in chain groups points rows unread; do
    measure "$text" regen "$program" regen model.slvs new.slvs
    measure "$text" report "$program" report model.slvs
    if command -v solvespace-cli >/dev/null; then
        measure "$text" solvespace solvespace-cli regenerate model.slvs
    fi
done
