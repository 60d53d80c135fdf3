#!/bin/sh
# Runs the built program on texts that are too large for a test of the gate, and on its own output. Says nothing where all holds.
#   tests/outside/program.sh
set -eu
top=$(cd "$(dirname "$0")/../.." && pwd)
room=$(mktemp -d)
trap 'rm -rf "$room"' EXIT
data=$top/crates/kudzuawl/data
fail() { echo "$1" >&2; exit 1; }

# an array of a via that is above the most of fixed shapes, and one that no memory holds
array() {
    sed "s/^NETS/SPECIALNETS 1 ;\n- VDD + ROUTED M1 0 ( 0 0 ) V12 DO $1 BY $1 STEP 1 1 ;\nEND SPECIALNETS\nNETS/" "$data/d" > "$room/array.def"
    said=$("$top/kudzuawl" route "$data/l" "$room/array.def" - "$room/out.def" "$room/journal.txt") || true
    [ "$said" = "$2" ] || fail "an array of $1 by $1: $said"
}
array 1200 "error 7 limit fixed-shapes 4320002 4194304"
array 1073741824 "error 10 memory"

# a via of DEF is no joint, though it would fit beside the blockage: where LEF has no via for routing the
# net is stuck, where LEF's has the same rectangles it joins the net at (900 100), and where LEF's is too
# wide for that place the net takes three. The wire is 800 + 400 long each time
own_via() {
    sed "$2" "$data/l" > "$room/own.lef"
    sed "s/^PINS/VIAS 1 ;\n- D12 + RECT M1 ( -50 -50 ) ( 50 50 ) + RECT C1 ( -25 -25 ) ( 25 25 ) + RECT M2 ( -50 -50 ) ( 50 50 ) ;\nEND VIAS\nBLOCKAGES 1 ;\n- LAYER M2 RECT ( 1100 60 ) ( 1200 140 ) ;\nEND BLOCKAGES\nPINS/" "$data/d" > "$room/own.def"
    said=$("$top/kudzuawl" route "$room/own.lef" "$room/own.def" - "$room/out.def" "$room/journal.txt" |
        grep -E "^(stuck|wire|vias) " | tr "\n" " ")
    [ "$said" = "$3" ] || fail "a via of DEF, $1 of LEF: $said"
    [ "$(grep -c D12 "$room/out.def")" = 1 ] || fail "a via of DEF is written, $1 of LEF"
}
own_via "none" "s/ DEFAULT//" "stuck 1 wire 0 vias 0 "
own_via "the same" "" "stuck 0 wire 1200 vias 1 "
own_via "a wide one" "/^  LAYER M2/{n;s/0.05 -0.05 0.05/0.15 -0.05 0.15/}" "stuck 0 wire 1200 vias 3 "

# a routed DEF has no net left to route, and is written as it is
cells=$top/examples/cells
"$top/kudzuawl" route "$cells.lef" "$cells.def" "$cells.guide" "$room/once.def" "$room/journal.txt" > /dev/null
said=$("$top/kudzuawl" route "$cells.lef" "$room/once.def" "$cells.guide" "$room/twice.def" "$room/journal.txt")
case $said in *"prewired 7"*) ;; *) fail "a routed DEF: $said" ;; esac
cmp "$room/once.def" "$room/twice.def"
