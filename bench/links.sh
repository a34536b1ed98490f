#!/usr/bin/env bash
# Times whether links are those of spheres, on a torus, on the 12-simplex and its boundary, and on closed 4-manifolds: wall time without
# that of the growth.
#     bench/links.sh [RUNS]
# YARDSTICK names a program with the same language to be timed beside it, whose replies must be the same.
set -eu
here=$(cd "$(dirname "$0")" && pwd)
"$here/../bin/cohom" script </dev/null
python3 "$here/questions.py" links "$here/../crates/cohom/out/cohom" "${1:-3}" ${YARDSTICK:+"$YARDSTICK"}
