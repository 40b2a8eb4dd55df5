#!/bin/sh
# Runs so many nodes of `zen` over sockets and folders, ends some of them by SIGKILL again and again while a client has settings put one at a time,
# and measures for how long no put is acknowledged, and until the dead are no members. It needs Python 3.
# Usage: bench/failover.sh [PROGRAM [NODES [ROUNDS [FOLDER]]]]; PROGRAM is what `rt run` leaves in crates/zen/out/zen, NODES (5 where none is named)
# are 3 to 64, ROUNDS (8) are those of each kind. The files lie in a new folder in FOLDER, or where temporary ones do.
# Ends with status 0 where each round came to its end in time, else with 1. It leaves no process and no file.
set -eu
top=$(cd "$(dirname "$0")/.." && pwd)
exec python3 "$top/bench/failover.py" "${1:-$top/crates/zen/out/zen}" "${2:-5}" "${3:-8}" ${4:+"$4"}
