#!/bin/sh
# Runs the built program on made designs and prints a table: user seconds, peak memory, what the
# report says, the status of the program.
#   tests/outside/speed.sh [--cases 'NETS:GUIDE ..'] [--most SECONDS] [--seed N] [--made WORDS] [PROGRAM [PROGRAM]]
# GUIDE is local or none. --most is the longest that a run may take by the clock. --made has further
# words for made_design.py. PROGRAM is ./kudzuawl of this repository where none is given; of two the
# first is called before and the second after, and both are run on the same texts, case by case.
set -eu
top=$(cd "$(dirname "$0")/../.." && pwd)
cases='250:local 1000:local 4000:local 250:none 1000:none'
most=300
seed=1
made=
first=
second=

usage() { sed -n '4,7s/^# *//p' "$0" >&2; exit 2; }
while [ $# -gt 0 ]; do
    case $1 in
        --cases|--most|--seed|--made)
            [ $# -ge 2 ] || usage
            case $1 in --cases) cases=$2 ;; --most) most=$2 ;; --seed) seed=$2 ;; --made) made=$2 ;; esac
            shift ;;
        -*) usage ;;
        *) if [ -z "$first" ]; then first=$1; elif [ -z "$second" ]; then second=$1; else usage; fi ;;
    esac
    shift
done
: "${first:=$top/kudzuawl}"
for program in "$first" ${second:+"$second"}; do
    # builds the program where it is a launcher, so that building isn't timed
    "$program" --version > /dev/null || { echo "speed: $program doesn't run" >&2; exit 2; }
done

room=$(mktemp -d)
trap 'rm -rf "$room"' EXIT
trap 'exit 130' INT TERM

# Prints user seconds, kilobytes and the status, or `cut`. Without GNU time the memory of a small
# run is that of the Python that starts it.
cat > "$room/run.py" <<'PYTHON'
import os, signal, subprocess, sys
most, report, used, words = float(sys.argv[1]), sys.argv[2], sys.argv[3], sys.argv[4:]
timed = ["/usr/bin/time", "-f", "%U %M", "-o", used]
try:
    has_time = subprocess.run(timed + ["true"], stderr=subprocess.DEVNULL).returncode == 0
except OSError:
    has_time = False
is_cut = False

def cut(*_):
    global is_cut
    is_cut = True
    os.killpg(child.pid, signal.SIGKILL)

with open(report, "wb") as file:
    child = subprocess.Popen((timed if has_time else []) + words, stdout=file, stderr=subprocess.STDOUT,
                             stdin=subprocess.DEVNULL, start_new_session=True)
    signal.signal(signal.SIGTERM, lambda *_: sys.exit(1))
    signal.signal(signal.SIGALRM, cut)
    signal.setitimer(signal.ITIMER_REAL, most)
    ended = False
    try:
        _, status, usage = os.wait4(child.pid, 0)
        ended = True
    finally:
        signal.setitimer(signal.ITIMER_REAL, 0)
        if not ended:
            os.killpg(child.pid, signal.SIGKILL)
code = os.waitstatus_to_exitcode(status)
if code < 0:
    code = 128 - code
if is_cut:
    print("cut")
elif has_time:
    with open(used) as file:
        print(file.read().split("\n")[-2], code)
else:
    print(usage.ru_utime, usage.ru_maxrss, code)
PYTHON

row() { printf '%7s %-6s %-7s %9s %8s %7s %6s %11s %8s %6s\n' "$@"; }

# one run: NETS GUIDE LABEL PROGRAM
run() {
    text=$room/made.guide
    [ "$2" = local ] || text=-
    rm -f "$room/report"
    answer=$(python3 "$room/run.py" "$most" "$room/report" "$room/used" \
        "$4" route "$room/made.lef" "$room/made.def" "$text" "$room/out.def" "$room/journal.txt")
    if [ "$answer" = cut ]; then
        row "$1" "$2" "$3" ">$most" - - - - - cut
        return
    fi
    user=$(echo "$answer" | awk '{ printf "%.2f", $1 }')
    memory=$(echo "$answer" | awk '{ printf "%.1f", $2 / 1024 }')
    status=$(echo "$answer" | awk '{ print $3 }')
    said() { awk -v word="$1" '$1 == word && NF == 2 { print $2; found = 1; exit } END { if (!found) print "-" }' "$room/report"; }
    row "$1" "$2" "$3" "$user" "$memory" "$(said joined)" "$(said stuck)" "$(said wire)" "$(said vias)" "$status"
    case $status in 0|1) ;; *) head -n 1 "$room/report" ;; esac
}

row nets guide program 'user s' MB joined stuck wire vias status
for case in $cases; do
    nets=${case%%:*}
    guide=${case#*:}
    case $guide in local|none) ;; *) usage ;; esac
    # $made is several words
    python3 "$top/tests/outside/made_design.py" "$nets" "$seed" "$room" --guide "$guide" $made > "$room/said"
    if [ -z "$second" ]; then
        run "$nets" "$guide" - "$first"
    else
        run "$nets" "$guide" before "$first"
        run "$nets" "$guide" after "$second"
    fi
done
