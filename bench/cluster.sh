#!/bin/sh
# Runs so many nodes of `zen` over sockets and folders, with a put before the leader is ended by SIGKILL and one after it, and measures how long each takes,
# their memory and their descriptors. It needs Python 3.
# Usage: bench/cluster.sh [PROGRAM [NODES [FOLDER]]]; PROGRAM is what `rt run` leaves in crates/zen/out/zen, NODES (63 where none is named, 64 at most) begin as voters. The files
# lie in a new folder in FOLDER, or where temporary ones do.
# Ends with status 0 where both puts are acknowledged and all nodes are members before the kill, with 2 where one of these is late and a node
# had to wait for a processor for more than a tenth of the time, else with 1. It takes five minutes at most, and leaves no process and no file.
set -eu
top=$(cd "$(dirname "$0")/.." && pwd)
exec python3 "$top/bench/cluster.py" "${1:-$top/crates/zen/out/zen}" "${2:-63}" ${3:+"$3"}
