#!/usr/bin/env bash
# Times the pairing, the Wu classes and the Stiefel-Whitney classes of closed complexes, each question asked many times: wall time
# without that of the growth.
#     bench/manifolds.sh [RUNS]
# YARDSTICK names a program with the same language to be timed beside it, whose replies must be the same.
set -eu
here=$(cd "$(dirname "$0")" && pwd)
"$here/../bin/cohom" script </dev/null
python3 "$here/questions.py" manifolds "$here/../crates/cohom/out/cohom" "${1:-3}" ${YARDSTICK:+"$YARDSTICK"}
