#!/bin/sh
# Reads LEF libraries that lie on this machine. KUDZUAWL_LEF names them, separated by colons; where
# it names none, or a file isn't there, that is said and nothing is tried. The DEF has LEF's units
# and no DIEAREA, so a LEF that is read is answered by `error 4 missing die-area`, and one that is
# refused by its own line. The status is 1 where a file isn't read.
top=$(dirname -- "$(readlink -f -- "$0")")/../..

if [ -z "$KUDZUAWL_LEF" ]; then
    echo "lef: skipped, KUDZUAWL_LEF names no file"
    exit 0
fi

folder=$(mktemp -d) || exit 1
trap 'rm -rf -- "$folder"' EXIT

status=0
IFS=:
for lef in $KUDZUAWL_LEF; do
    if [ ! -f "$lef" ]; then
        echo "lef: skipped, no file $lef"
        continue
    fi
    units=$(sed -n 's/^[[:space:]]*DATABASE[[:space:]]*MICRONS[[:space:]]*\([0-9]*\).*/\1/p' "$lef" | head -n 1)
    printf 'UNITS DISTANCE MICRONS %s ;\nEND DESIGN\n' "${units:-100}" > "$folder/d.def"
    answer=$("$top/kudzuawl" route "$lef" "$folder/d.def" - "$folder/out" "$folder/journal" 2>&1)
    if [ "$answer" = "error 4 missing die-area" ]; then
        echo "lef: read $lef"
    else
        echo "lef: $lef: $answer"
        status=1
    fi
done
exit $status
