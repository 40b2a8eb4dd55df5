#!/bin/sh
# Measures coordinators over journals on disks in memory: events a second of idle followers, of checks and of puts. Each case runs
# once with no round and then with its rounds, and the difference counts, so that the nodes' making and their election are left out.
# Times are the processor's, the least of three runs; with valgrind the instructions of an event are counted too.
# Usage: bench/coordinator.sh [PROGRAM]; with no PROGRAM it builds crates/zen_bench/out/zen_bench.
set -eu
top=$(cd "$(dirname "$0")/.." && pwd)
bench=${1:-$top/crates/zen_bench/out/zen_bench}
work=$(mktemp -d)
trap 'rm -rf "$work"' EXIT
if [ $# -eq 0 ]; then
    (cd "$top/crates/zen_bench" && rt run -- growths) > "$work/build" 2>&1 || { tail -n 20 "$work/build" >&2; exit 1; }
fi

# The events that a run of these words counts.
events() {
    "$bench" "$@" | sed -n 's/^events \([0-9]*\),.*/\1/p'
}

# The least seconds of three runs of these words.
seconds() {
    for _ in 1 2 3; do
        /usr/bin/time -f '%U %S' -o "$work/time" "$bench" "$@" > /dev/null
        awk '{ print $1 + $2 }' "$work/time"
    done | sort -n | head -n 1
}

# The instructions of a run of these words.
instructions() {
    valgrind --tool=callgrind --callgrind-out-file="$work/counts" "$bench" "$@" > /dev/null 2>&1
    awk '/^(summary|totals):/ { print $2; exit }' "$work/counts"
}

# A case by its name, the rounds that are timed, the rounds whose instructions are counted, and the words before the rounds.
measure() {
    name=$1 rounds=$2 few=$3
    shift 3
    echo "$(events "$@" 0) $(events "$@" "$rounds") $(seconds "$@" 0) $(seconds "$@" "$rounds")" | awk -v name="$name" -v rounds="$rounds" '{
        events = $2 - $1; time = $4 - $3
        printf "%s: %d events in %d rounds, %.2f s", name, events, rounds, time
        if (time > 0) printf ", %.0f events a second, %.1f us a round", events / time, 1e6 * time / rounds
        printf "\n"
    }'
    command -v valgrind > /dev/null || return 0
    echo "$(events "$@" 0) $(events "$@" "$few") $(instructions "$@" 0) $(instructions "$@" "$few")" | awk -v name="$name" -v few="$few" '{
        printf "    %.0f instructions an event, %.1f thousand a round\n", ($4 - $3) / ($2 - $1), ($4 - $3) / few / 1000
    }'
}

measure 'ticks of a follower' 1000000 10000 ticks
measure 'checks of a leader of 31 members' 10000 100 checks
measure 'puts over three nodes, 10 settings' 20000 200 puts 10
measure 'puts over three nodes, 1000 settings' 500 10 puts 1000
