#!/bin/sh
# Measures nodes over sockets and real files: acts a second against a bare loop of the same device calls, requests a second with
# their percentiles, and bytes of frames a second. It needs Python 3.
# Usage: bench/node.sh [PROGRAM [FOLDER]]; PROGRAM is what `rt run` leaves in crates/zen/out/zen. The files lie in a new folder in
# FOLDER, or where temporary ones do: name one on the disk that is meant.
set -eu
top=$(cd "$(dirname "$0")/.." && pwd)
exec python3 "$top/bench/node.py" "${1:-$top/crates/zen/out/zen}" ${2:+"$2"}
