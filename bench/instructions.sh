#!/bin/sh
# Counts the instructions of replays and of a generated schedule by callgrind, which gives the same number whatever else the machine
# does, beside those of a plain Rust program of the same job (bench/plain), and prints them as a table with the commit.
# Usage: bench/instructions.sh [PROGRAM]; PROGRAM is what `rt run` leaves in crates/zen/out/zen. It needs valgrind, awk and rustc.
set -eu
top=$(cd "$(dirname "$0")/.." && pwd)
zen=${1:-$top/crates/zen/out/zen}
work=$(mktemp -d)
trap 'rm -rf "$work"' EXIT
. "$top/bench/schedules.sh"

# The millions of instructions of a program with these words, whose input is the schedule and whose output the named file.
millions() {
    out=$1
    shift
    valgrind --tool=callgrind --callgrind-out-file="$work/counts" "$@" < "$work/schedule" > "$work/$out" 2> "$work/told" || {
        tail -n 5 "$work/told" >&2
        exit 1
    }
    awk '/^(summary|totals):/ { printf "%.1f\n", $2 / 1e6; exit }' "$work/counts"
}

# A row of the table: its name, how many lines it has, and the counts of zen and of the plain program, which is `-` where it has no such job.
row() {
    awk -v name="$1" -v lines="$2" -v ours="$3" -v plain="$4" 'BEGIN {
        ratio = plain == "-" ? "" : sprintf("%.2f", ours / plain)
        printf "| %s | %d | %s | %.0f | %s | %s |\n", name, lines, ours, 1e6 * ours / lines, plain, ratio
    }'
}

# A schedule of level core, done by both: their traces must be the same.
core() {
    ours=$(millions trace "$zen" replay --level core)
    plain=$(millions plain_trace "$work/plain")
    cmp "$work/trace" "$work/plain_trace" >&2
    row "$1" "$(wc -l < "$work/schedule")" "$ours" "$plain"
}

rustc -O -C target-cpu=x86-64 -o "$work/plain" "$top/bench/plain/main.rs"
commit=$(git -C "$top" rev-parse --short HEAD)
git -C "$top" diff --quiet HEAD || commit="$commit with changes"
echo "Commit $commit:"
echo
echo '| What | Lines | Million instructions | Instructions a line | Plain Rust, million | Ratio |'
echo '|---|---|---|---|---|---|'
unsent 50002 > "$work/schedule"; core 'deliveries of a message that nobody sent'
deliveries 50008 > "$work/schedule"; core 'deliveries of one join'
rounds 5800 > "$work/schedule"; core 'elections, values and commits over five nodes'
elections 6400 32 > "$work/schedule"; core 'elections of 32 voters'
elections 6400 63 > "$work/schedule"; core 'elections of 63 voters'
puts 5000 > "$work/schedule"
row 'whole nodes, puts over five nodes' "$(wc -l < "$work/schedule")" "$(millions trace "$zen" replay --level node)" -
: > "$work/schedule"
row 'a generated schedule and its summary' 20000 "$(millions trace "$zen" generate --number 7 --steps 20000)" -
