#!/bin/sh
# Measures what frames cost: joins of 33 bytes, and publish requests of 1.2 MB, which come in pieces of 4,096 bytes as over a socket.
# They are lent out of their bytes, or each is made by itself too, as a node does; or they are written. Instructions are counted by
# callgrind, as the difference of two runs, so that what a run begins with is in neither; they are the same whatever else the machine
# does. The time is the processor's, the least of three runs.
# Usage: bench/frames.sh [PROGRAM]; with no PROGRAM it builds crates/zen_bench/out/zen_bench. It needs valgrind and awk.
set -eu
top=$(cd "$(dirname "$0")/.." && pwd)
bench=${1:-$top/crates/zen_bench/out/zen_bench}
work=$(mktemp -d)
trap 'rm -rf "$work"' EXIT
if [ $# -eq 0 ]; then
    (cd "$top/crates/zen_bench" && rt run -- growths) > "$work/build" 2>&1 || { tail -n 20 "$work/build" >&2; exit 1; }
fi

# The instructions of so many rounds of WHAT with a kind of frame.
instructions() {
    valgrind --tool=callgrind --callgrind-out-file="$work/counts" "$bench" frames "$1" "$2" "$3" > /dev/null 2>&1
    awk '/^(summary|totals):/ { print $2; exit }' "$work/counts"
}

# The least seconds of three runs.
seconds() {
    for _ in 1 2 3; do
        /usr/bin/time -f '%U %S' -o "$work/time" "$bench" frames "$1" "$2" "$3" > /dev/null
        awk '{ print $1 + $2 }' "$work/time"
    done | sort -n | head -n 1
}

# A row of the table: what is done, a kind, the bytes of a frame, how many frames are counted, and how many are timed.
row() {
    few=$(instructions "$1" "$2" "$4")
    more=$(instructions "$1" "$2" $(($4 * 2)))
    awk -v what="$1" -v kind="$2" -v bytes="$3" -v count="$4" -v few="$few" -v more="$more" -v timed="$5" -v seconds="$(seconds "$1" "$2" "$5")" 'BEGIN {
        each = (more - few) / count
        printf "| %s | %s | %d | %.0f | %.2f | %.0f |\n", kind, what, bytes, each, each / bytes, timed * bytes / seconds / 1e6
    }'
}

echo '| Kind | What is done | Bytes a frame | Instructions a frame | Instructions a byte | MB/s |'
echo '|---|---|---|---|---|---|'
for what in lend make write; do
    row "$what" join 33 100000 5000000
    row "$what" publish 1183813 4 400
done
