#!/usr/bin/env bash
# Times questions on cup-i products of canonical cocycles of large complexes: wall time without that of the growth.
#     bench/products.sh [RUNS]
# YARDSTICK names a program with the same language to be timed beside it, whose replies must be the same.
set -eu
here=$(cd "$(dirname "$0")" && pwd)
"$here/../bin/cohom" script </dev/null
python3 "$here/questions.py" products "$here/../crates/cohom/out/cohom" "${1:-3}" ${YARDSTICK:+"$YARDSTICK"}
