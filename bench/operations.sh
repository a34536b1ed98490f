#!/usr/bin/env bash
# Times products and squares of classes on closed manifolds: wall time without that of the growth.
#     bench/operations.sh [RUNS]
# YARDSTICK names a program with the same language to be timed beside it, whose replies must be the same.
set -eu
here=$(cd "$(dirname "$0")" && pwd)
"$here/../bin/cohom" script </dev/null
python3 "$here/questions.py" operations "$here/../crates/cohom/out/cohom" "${1:-3}" ${YARDSTICK:+"$YARDSTICK"}
