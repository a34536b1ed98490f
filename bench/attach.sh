#!/usr/bin/env bash
# Attaches the simplices of the triangulated 40 by 40 torus, as many as fit 65,536 bytes, and prints
# wall time, peak memory and the number of steps that the algorithm counts.
#     bench/attach.sh [RUNS]
set -eu
here=$(cd "$(dirname "$0")" && pwd)
"$here/../bin/cohom" script </dev/null
python3 "$here/attach.py" "$here/../crates/cohom/out/cohom" "${1:-5}"
