#!/bin/sh
# Refuses each growth of the heap in turn, over each schedule: the program must end with status 4 and a prefix of its trace, or, where it can do
# without that growth, with status 0 and the whole trace.
# Usage: bench/growths.sh [PROGRAM [SCHEDULE..]]; PROGRAM is what `rt run` leaves in crates/zen/out/zen, and the schedules are those of the stories in
# examples/ where none is named. A schedule with a line of level node is replayed at that level. It needs a C compiler.
set -eu
top=$(cd "$(dirname "$0")/.." && pwd)
zen=${1:-$top/crates/zen/out/zen}
[ $# -eq 0 ] || shift
work=$(mktemp -d)
trap 'rm -rf "$work"' EXIT
if [ $# -eq 0 ]; then
    mkdir "$work/stories"
    for story in "$top"/examples/*.md; do
        "$top/examples/cut" schedule "$story" > "$work/stories/$(basename "$story" .md)"
    done
    rm "$work/stories/README" "$work/stories/three-nodes" "$work/stories/old-folder"
    set -- "$work"/stories/*
fi
cc -shared -fPIC -O1 -o "$work/refuse.so" "$top/bench/refuse_growth.c" -ldl

# Runs the program on a schedule with this growth refused; its trace is in $work/trace.
run() {
    status=0
    REFUSE=$2 COUNT="$work/count" LD_PRELOAD="$work/refuse.so" "$zen" replay --level "$level" < "$1" > "$work/trace" || status=$?
}

for schedule; do
    level=core
    ! grep -q '^tick \|^client ' "$schedule" || level=node
    run "$schedule" 0
    [ "$status" = 0 ] || { echo "$schedule: status $status with ample memory" >&2; exit 1; }
    mv "$work/trace" "$work/whole"
    growths=$(cat "$work/count")
    refused=0
    for growth in $(seq 1 "$growths"); do
        run "$schedule" "$growth"
        size=$(wc -c < "$work/trace")
        case $status in
            0) cmp -s "$work/trace" "$work/whole" || { echo "$schedule: growth $growth: status 0 and another trace" >&2; exit 1; } ;;
            4) cmp -s -n "$size" "$work/trace" "$work/whole" || { echo "$schedule: growth $growth: no prefix of the trace" >&2; exit 1; }
                refused=$((refused + 1)) ;;
            *) echo "$schedule: growth $growth: status $status" >&2; exit 1 ;;
        esac
    done
    echo "$(basename "$schedule"): $growths growths, each refused in turn: $refused runs ended with status 4 and a prefix of the trace"
done
