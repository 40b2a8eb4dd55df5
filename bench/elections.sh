#!/bin/sh
# Simulates elections among many nodes by the rules of docs/policy.md: some of them end at once, or connections are cut again and again. It is no
# measurement, and no node runs: it was written to choose the rule for those who lost their leader. It needs Python 3.
# Usage: bench/elections.sh [NAME=VALUE ..]; the names are those at the head of bench/elections.py. With none it prints the rows of the table in
# bench/README.md, which takes two minutes.
set -eu
top=$(cd "$(dirname "$0")/.." && pwd)
echo '| What | nobody serves, s: median | 99th percentile | worst | candidacies a run | frames |'
echo '|---|--:|--:|--:|--:|--:|'
if [ $# -gt 0 ]; then
    exec python3 "$top/bench/elections.py" "$@"
fi
while read -r words; do
    # Each row is some words.
    # shellcheck disable=SC2086
    python3 "$top/bench/elections.py" $words
done <<'ROWS'
nodes=3 runs=200 seconds=4
nodes=3 runs=200 seconds=4 grace=50
nodes=3 runs=200 seconds=4 before=none
nodes=15 runs=40 seconds=4
nodes=15 runs=10 seconds=4 frame=40
nodes=15 runs=10 seconds=4 frame=40 before=none
nodes=31 runs=5 seconds=4
nodes=31 runs=5 seconds=4 dead=5
nodes=31 runs=5 seconds=4 dead=5 before=voters
nodes=5 runs=10 seconds=12 cuts=8 all=1
nodes=5 runs=10 seconds=12 cuts=8 all=1 again=0
ROWS
