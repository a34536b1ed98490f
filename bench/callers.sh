#!/usr/bin/env bash
# Times scripts of several callers: versions by one caller and by sixteen in turn, held versions asked in turn, and returns:
# wall time and peak memory.
#     bench/callers.sh [RUNS]
# YARDSTICK names a program with the same language to be timed beside it.
set -eu
here=$(cd "$(dirname "$0")" && pwd)
"$here/../bin/cohom" script </dev/null
python3 "$here/callers.py" "$here/../crates/cohom/out/cohom" "${1:-5}" ${YARDSTICK:+"$YARDSTICK"}
