#!/usr/bin/env bash
# Times the reading of lines: a million blank lines; one line of 1,048,575 bytes; 200,000 lines that are refused as
# bad; long lines that are refused, as megabytes a second; and the facet of thirteen vertices.
#     bench/read.sh [RUNS]
set -eu
here=$(cd "$(dirname "$0")" && pwd)
"$here/../bin/cohom" script </dev/null
python3 "$here/read.py" "$here/../crates/cohom/out/cohom" "${1:-5}"
