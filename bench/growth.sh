#!/usr/bin/env bash
# Grows complexes of several kinds, cuts each and asks its Betti numbers: wall time, peak memory and counted steps.
#     bench/growth.sh [RUNS]
# YARDSTICK names a program with the same language to be timed beside it.
set -eu
here=$(cd "$(dirname "$0")" && pwd)
"$here/../bin/cohom" script </dev/null
python3 "$here/growth.py" "$here/../crates/cohom/out/cohom" "${1:-5}" ${YARDSTICK:+"$YARDSTICK"}
