#!/bin/sh
# Measures the gate: runs `rt ci` and prints a table of processor seconds (user and system time) by crate and by kind: its proof, its tests, the proof
# that its must-fail edits begin with, the edits, and the last look at that proof. It needs Python 3.
# Usage: bench/gate.sh [WORD ..]; the words go to `rt ci`: `--anew` proves all, whatever earlier runs on this machine have kept, and the names of crates
# measure these and those below them. Nothing else should run at the time: two threads of one core take more seconds than one, and so does a busy machine.
set -eu
top=$(cd "$(dirname "$0")/.." && pwd)
exec python3 "$top/bench/gate.py" "$top" "$@"
