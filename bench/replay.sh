#!/bin/sh
# Measures the replay: lines a second, peak memory, and how the time grows with the number of lines.
# Usage: bench/replay.sh [PROGRAM]; PROGRAM is what `rt run` leaves in crates/zen/out/zen.
set -eu
top=$(cd "$(dirname "$0")/.." && pwd)
zen=${1:-$top/crates/zen/out/zen}
work=$(mktemp -d)
trap 'rm -rf "$work"' EXIT

. "$top/bench/schedules.sh"

measure() { # [LEVEL]
    /usr/bin/time -f '%e %M' -o "$work/time" "$zen" replay --level "${1:-core}" < "$work/schedule" > "$work/trace"
    read -r seconds memory < "$work/time"
}

deliveries 100000 > "$work/schedule"; measure; small=$seconds
deliveries 1000000 > "$work/schedule"; measure; large=$seconds
awk -v s="$small" -v l="$large" -v m="$memory" 'BEGIN {
    printf "deliveries: 1000000 lines in %.2f s, %.0f lines/s, peak %d kB\n", l, 1000000 / (l > 0 ? l : 0.01), m
    printf "ratio of the times for 1000000 and 100000 lines: %.1f\n", l / (s > 0 ? s : 0.01)
}'
rounds 100000 > "$work/schedule"; measure
awk -v l="$seconds" -v m="$memory" -v n="$(wc -l < "$work/schedule")" -v c="$(grep -c '^committed ' "$work/trace")" 'BEGIN {
    printf "elections, values and commits over five nodes: %d lines in %.2f s, %d committed lines, peak %d kB\n", n, l, c, m
}'
terms 200000 > "$work/schedule"; measure
awk -v l="$seconds" -v m="$memory" 'BEGIN {
    printf "acts that write, over a journal in memory: 200000 in %.2f s, %.0f acts/s, peak %d kB\n", l, 200000 / (l > 0 ? l : 0.01), m
}'
puts 20000 > "$work/schedule"; measure node; small=$seconds less=$memory
puts 200000 > "$work/schedule"; measure node
awk -v s="$small" -v l="$seconds" -v k="$less" -v m="$memory" -v n="$(wc -l < "$work/schedule")" -v c="$(grep -c '"acked"' "$work/trace")" 'BEGIN {
    printf "whole nodes, puts over five nodes: %d lines in %.2f s, %.0f lines/s, %d puts acknowledged, peak %d kB\n", n, l, n / (l > 0 ? l : 0.01), c, m
    printf "ratio of the times for 200000 and 20000 lines: %.1f, of the peaks: %.1f\n", l / (s > 0 ? s : 0.01), m / k
}'
