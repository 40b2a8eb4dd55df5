#!/bin/sh
# Starts new nodes of `zen` again and again, by the first and by the second profile of the policy, over lines that hold each piece of bytes for some ms, and counts how
# often not all of them are voters, in the end or at any moment; and measures after what time a node that was down has what was put meanwhile, and for how long a leader leads
# on that reaches nobody. It needs Python 3.
# Usage: bench/profiles.sh [PROGRAM [STARTS [FOLDER]]]; PROGRAM is what `rt run` leaves in crates/zen/out/zen, STARTS (10) are those of each kind. The files lie in a
# new folder in FOLDER, or where temporary ones do. With 10 starts it takes three quarters of an hour, mostly waiting. It leaves no process and no file.
set -eu
top=$(cd "$(dirname "$0")/.." && pwd)
exec python3 "$top/bench/profiles.py" "${1:-$top/crates/zen/out/zen}" "${2:-10}" ${3:+"$3"}
