#!/bin/sh
# Refuses each growth of the heap in turn, on the small cluster of `zen_bench growths`, which gives a step that finds no
# memory its event once more. Such a step changes nothing, so the run must end with status 0 and the line that it prints with ample
# memory, digest and all; or with status 4, where the growth was one of the program's own around the steps: an event's bytes or its
# frame, the queue of what was sealed, the settings of a node, the words and the line.
# Usage: bench/coordinator_growths.sh [PROGRAM]; PROGRAM is what `rt run` leaves in crates/zen_bench/out/zen_bench.
# The gate runs it. Where there is no C compiler it does nothing, with status 0.
set -eu
top=$(cd "$(dirname "$0")/.." && pwd)
bench=${1:-$top/crates/zen_bench/out/zen_bench}
work=$(mktemp -d)
trap 'rm -rf "$work"' EXIT
if ! cc -shared -fPIC -O1 -o "$work/refuse.so" "$top/bench/refuse_growth.c" -ldl 2> /dev/null; then
    echo "bench/coordinator_growths.sh: no C compiler, so no growth was refused"
    exit 0
fi

# Runs the program with this growth refused; its line is in $work/line.
run() {
    status=0
    REFUSE=$1 COUNT="$work/count" LD_PRELOAD="$work/refuse.so" "$bench" growths > "$work/line" 2> "$work/errors" || status=$?
}

run 0
[ "$status" = 0 ] || { echo "status $status with ample memory" >&2; exit 1; }
mv "$work/line" "$work/whole"
growths=$(cat "$work/count")
same=0 outside=0
for growth in $(seq 1 "$growths"); do
    run "$growth"
    case $status in
        0) cmp -s "$work/line" "$work/whole" || { echo "growth $growth: status 0 and another line" >&2; exit 1; }
            same=$((same + 1)) ;;
        4) [ ! -s "$work/line" ] || { echo "growth $growth: status 4 and a line" >&2; exit 1; }
            outside=$((outside + 1)) ;;
        *) echo "growth $growth: status $status" >&2; cat "$work/errors" >&2; exit 1 ;;
    esac
done
cat "$work/whole"
echo "$growths growths, each refused in turn: $same runs ended with that line, $outside with status 4, outside a step"
