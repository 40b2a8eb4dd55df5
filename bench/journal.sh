#!/bin/sh
# Measures the journal of a folder: the time of a million terms set one by one, the bytes on the disk behind them, and the time and the
# memory of an opening. The files lie in a new folder in FOLDER, or in /dev/shm, where a sync costs next to nothing, so that what is
# measured is the program and not the device.
# Usage: bench/journal.sh [PROGRAM [FOLDER [TERMS]]]; with no PROGRAM it builds crates/zen_bench/out/zen_bench.
set -eu
top=$(cd "$(dirname "$0")/.." && pwd)
bench=${1:-$top/crates/zen_bench/out/zen_bench}
terms=${3:-1000000}
work=$(mktemp -d "${2:-/dev/shm}/journal.XXXXXX")
trap 'rm -rf "$work"' EXIT
if [ $# -eq 0 ]; then
    (cd "$top/crates/zen_bench" && rt run -- growths) > "$work/build" 2>&1 || { tail -n 20 "$work/build" >&2; exit 1; }
fi

# The seconds and the peak of the memory of a run that sets so many terms.
timed() {
    /usr/bin/time -f '%U %S %e %M' -o "$work/time" "$bench" terms "$work/folder" "$1" > "$work/said"
    awk '{ print $1 + $2, $3, $4 }' "$work/time"
}

timed "$terms" | awk -v terms="$terms" '{ printf "%d terms set: %.2f s of the processor, %.0f acts/s; %.2f s in all\n", terms, $1, terms / $1, $2 }'
sed 's/^/    /' "$work/said"
wc -c "$work/folder"/journal.* | awk '$2 != "total" { sub(/.*\//, "", $2); printf "    %s: %d bytes\n", $2, $1 }'
for _ in 1 2 3; do timed 0; done | sort -n | head -n 1 | awk '{ printf "an opening: %.3f s of the processor, peak %d kB\n", $1, $3 }'
