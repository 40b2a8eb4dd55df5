#!/bin/sh
# Runs the scripts of this folder that measure a program, and prints all that they print as rows of one table, each with the day and the machine: the
# table of bench/README.md. It takes some ten minutes, on a machine that does nothing else.
#   bench/figures.sh [NAME ..]
# NAME is that of a script, as `replay` of bench/replay.sh; without one, all of them. A script that fails has a row that says so, and the status is 1.
# Not run here: gate.sh, which proves, and the searches growths.sh and coordinator_growths.sh, which measure nothing.
set -u
top=$(cd "$(dirname "$0")/.." && pwd)
work=$(mktemp -d) || exit 1
trap 'rm -rf "$work"' EXIT
[ $# -gt 0 ] || set -- sizes instructions replay values frames journal coordinator node

# The processors, and how much ran on them besides, as the script begins.
machine() {
    awk -v many="$(nproc)" -F ': ' '/^model name/ { model = $2; exit } END { printf "%s × %s", many, model == "" ? "processor" : model }' /proc/cpuinfo
    awk '{ printf ", load %s", $1 }' /proc/loadavg
}

status=0
echo '| Day | Machine | Script | What was measured |'
echo '|---|---|---|---|'
for name in "$@"; do
    here=$(machine)
    "$top/bench/$name.sh" > "$work/out" 2> "$work/said" || {
        status=1
        echo "FAILED: $(tail -n 1 "$work/said")" >> "$work/out"
    }
    # A row of a table keeps its cells; what divides its head from its rows goes, and so do empty lines.
    sed -e '/^[|: -]*$/d' -e 's/^| *//' -e 's/ *|$//' -e 's/ *| */; /g' "$work/out" | while read -r line; do
        echo "| $(date +%F) | $here | \`$name\` | $line |"
    done
done
exit "$status"
