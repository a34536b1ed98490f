#!/usr/bin/env bash
# Times questions on canonical cocycles and class words of large complexes: wall time without that of the growth.
#     bench/classes.sh [RUNS]
# YARDSTICK names a program with the same language to be timed beside it, whose replies must be the same.
set -eu
here=$(cd "$(dirname "$0")" && pwd)
"$here/../bin/cohom" script </dev/null
python3 "$here/questions.py" classes "$here/../crates/cohom/out/cohom" "${1:-3}" ${YARDSTICK:+"$YARDSTICK"}
