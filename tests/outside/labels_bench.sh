#!/bin/sh
# Builds a program that calls `label` on made arenas (labels_bench.txt, labels_made.txt,
# labels_random.txt) beside the same search in plain Rust (labels_plain.rs), and compares them.
#   tests/outside/labels_bench.sh [--random COUNT] [--cases 'KIND:LINES:REACH ..']
# First the answers on so many random arenas, which the plain program also finds by a search over each
# place. Then a table: instructions of `label` by callgrind, its labels, and what of a second search in
# the cleared arena the system sees. KIND is bridges, runs, factors or uneven; LINES of each direction are cut
# into intervals of REACH crossings. Wants rustc, valgrind, strace and GNU time. The program rests on a
# C function that is taken to say whatever it would have to prove, so it shows counts and no proof.
set -eu
top=$(cd "$(dirname "$0")/../.." && pwd)
count=20000
cases='bridges:70:10 bridges:220:10 bridges:705:10 runs:70:10 runs:220:10 runs:705:10 factors:70:10 factors:220:10 factors:705:10 factors:300:300 uneven:100:10'
usage() { sed -n '4s/^# *//p' "$0" >&2; exit 2; }
while [ $# -gt 0 ]; do
    [ $# -ge 2 ] || usage
    case $1 in --random) count=$2 ;; --cases) cases=$2 ;; *) usage ;; esac
    shift 2
done
room=$(mktemp -d)
trap 'rm -rf "$room"' EXIT

crate=$room/crates/labels_bench
mkdir -p "$crate/src" "$crate/c"
for name in rt_base bucket_queue label_arena future_cost interval_label; do
    mkdir "$room/crates/$name"
    for part in src specs proofs; do
        cp -r "$top/crates/$name/$part" "$room/crates/$name/"
    done
    grep "^$name:" "$top/crates.txt" >> "$room/crates.txt"
done
echo 'labels_bench: rt_base label_arena future_cost interval_label' >> "$room/crates.txt"
cp "$top/tests/outside/labels_bench.txt" "$crate/src/main.rt"
cp "$top/tests/outside/labels_made.txt" "$crate/src/made.rt"
cp "$top/tests/outside/labels_random.txt" "$crate/src/random.rt"
echo 'unsigned given(void) { return 0; }' > "$crate/c/given.c"
(cd "$crate" && RT_ALLOW_C=labels_bench rt run -- random 1) > "$room/said" 2>&1 || { tail -n 20 "$room/said" >&2; exit 1; }
ours=$crate/out/labels_bench
plain=$room/plain
rustc -O -A warnings -C target-cpu=x86-64-v2 -o "$plain" "$top/tests/outside/labels_plain.rs"

"$plain" random "$count" > "$room/plain_answers"
"$ours" random "$count" > "$room/answers"
cmp "$room/plain_answers" "$room/answers"
echo "$count random arenas, of which $(grep -c 18446744073709551615 "$room/answers" || true) join no target: answers alike"

instructions() {
    valgrind --tool=callgrind --callgrind-out-file=/dev/null "$@" 2>&1 | awk '/Collected/ { print $NF }'
}
# what a program does in its first search, beside filling the arena
searched() {
    echo $(($(instructions "$1" "$2" "$3" "$4" 1) - $(instructions "$1" "$2" "$3" "$4" 0)))
}
# calls of the system for memory, where the heap gives nothing back
calls() {
    MALLOC_TRIM_THRESHOLD_=1000000000000 strace -e trace=brk,mmap,mremap -o "$room/calls" "$@" > "$room/said"
    wc -l < "$room/calls"
}
peak() { /usr/bin/time -f %M "$@" 2>&1 > "$room/said"; }

printf '%-16s %9s %8s %12s %12s %6s %12s %14s\n' case intervals labels plain label ratio 'more calls' 'peak kB'
for case in $cases; do
    set -- $(echo "$case" | tr : ' ')
    "$ours" "$1" "$2" "$3" 1 > "$room/answer"
    "$plain" "$1" "$2" "$3" 1 > "$room/plain_answer"
    [ "$(awk 'NR == 1 { print $1 }' "$room/answer")" = "$(awk 'NR == 1 { print $1 }' "$room/plain_answer")" ] || { echo "$case: answers differ" >&2; exit 1; }
    labels=$(awk 'NR == 1 { print $2 }' "$room/answer")
    intervals=$(awk 'NR == 2 { print $1 }' "$room/answer")
    rust=$(searched "$plain" "$1" "$2" "$3")
    own=$(searched "$ours" "$1" "$2" "$3")
    more=$(($(calls "$ours" "$1" "$2" "$3" 2) - $(calls "$ours" "$1" "$2" "$3" 1)))
    printf '%-16s %9s %8s %12s %12s %6s %12s %14s\n' "$case" "$intervals" "$labels" "$rust" "$own" \
        "$(awk -v a="$own" -v b="$rust" 'BEGIN { printf "%.2f", a / b }')" "$more" \
        "$(peak "$ours" "$1" "$2" "$3" 1)-$(peak "$ours" "$1" "$2" "$3" 2)"
done
