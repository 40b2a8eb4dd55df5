#!/bin/sh
# Measures rounds of large values over five nodes: the time of a round, and how it grows with the bytes of the value. A round
# builds the bytes of a state of full settings (keys of 128 bytes, values of 1,024), publishes its value, hands the bytes to
# each node, which decodes them and keeps the state in its journal, takes the responses and commits. An election runs once
# before the rounds, of which each size has as many as make the bytes equal. The journals lie on disks in memory, which log
# their writes, so the peak of the memory grows with the rounds.
# Times are the processor's, and rise where a value outgrows its caches; with valgrind the instructions are counted too.
# Usage: bench/values.sh [PROGRAM]; with no PROGRAM it builds crates/zen_bench/out/zen_bench.
set -eu
top=$(cd "$(dirname "$0")/.." && pwd)
bench=${1:-$top/crates/zen_bench/out/zen_bench}
work=$(mktemp -d)
trap 'rm -rf "$work"' EXIT
if [ $# -eq 0 ]; then
    (cd "$top/crates/zen_bench" && rt run -- growths) > "$work/build" 2>&1 || { tail -n 20 "$work/build" >&2; exit 1; }
fi

# The least seconds of three runs of SETTINGS and ROUNDS, and the memory.
seconds() {
    for _ in 1 2 3; do
        /usr/bin/time -f '%U %S %M' -o "$work/time" "$bench" values "$1" "$2" > /dev/null
        awk '{ print $1 + $2, $3 }' "$work/time"
    done | sort -n | head -n 1
}

for settings in 256 512 1024; do
    rounds=$((32768 / settings))
    echo "$settings $rounds $(seconds "$settings" "$rounds")"
done | awk '{
    bytes = 60 + $1 * (2 + 128 + 2 + 1024)
    printf "%d settings, %d bytes: %.3f ms a round, %.2f ns a byte (%d rounds)\n", $1, bytes, 1000 * $3 / $2, 1e9 * $3 / $2 / bytes, $2
    printf "    peak memory %d kB, of which the journals have %d kB\n", $4, 5 * $2 * bytes / 1024
    if ($1 == 256) small = $3
    if ($1 == 1024) printf "ratio of the times a byte for 1024 and 256 settings: %.2f\n", $3 / small
}'

command -v valgrind > /dev/null || exit 0
for settings in 256 1024; do
    rounds=$((8192 / settings))
    valgrind --tool=callgrind --callgrind-out-file="$work/counts" "$bench" values "$settings" "$rounds" > /dev/null 2>&1
    echo "$settings $rounds $(awk '/^(summary|totals):/ { print $2; exit }' "$work/counts")"
done | awk '{
    bytes = 60 + $1 * (2 + 128 + 2 + 1024)
    printf "%d settings: %.1f million instructions a round, %.2f a byte (%d rounds)\n", $1, $3 / $2 / 1e6, $3 / $2 / bytes, $2
    if ($1 == 256) small = $3
    if ($1 == 1024) printf "ratio of the instructions a byte: %.2f\n", $3 / small
}'
