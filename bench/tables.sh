#!/usr/bin/env bash
# Times the tables whose versions share, lists beside a plain twin in Rust that copies
# itself whole, an index beside the kit's ordered map:
# nanoseconds a step, the best of several runs.
#     bench/tables.sh [RUNS]
# tables/NAME.program is the measuring program over the proved crates, and tables/NAME.rs its twin; where
# there is none, the program itself times what it is compared to, in lines that begin with plain.
# A table is added by these files and a line in tables.py.
set -eu
here=$(cd "$(dirname "$0")" && pwd)
python3 "$here/tables.py" "${1:-10}"
