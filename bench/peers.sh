#!/bin/sh
# Measures three nodes of `zen` beside three of etcd, where `etcd` is installed (Debian's etcd-server): puts acknowledged and linearizable reads answered
# a second and their times, one at a time and 64 unanswered, the leader's processor time for each, memory, disk, and the gap after SIGKILL of the leader;
# both in one run, with one client, over loopback and one disk. It needs Python 3.
# Usage: bench/peers.sh [PROGRAM [SECONDS [FOLDER]]]; PROGRAM is what `rt run` leaves in crates/zen/out/zen, SECONDS (5) are those of each load.
# Nothing else should run at the time, and ratios tell more than figures.
set -eu
top=$(cd "$(dirname "$0")/.." && pwd)
exec python3 "$top/bench/peers.py" "${1:-$top/crates/zen/out/zen}" "${2:-5}" ${3:+"$3"}
