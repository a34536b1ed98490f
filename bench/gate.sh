#!/usr/bin/env bash
# Where the time of the whole gate from nothing goes: runs `rt ci --anew` in a fresh clone of what is committed, beside the table of an
# earlier commit where one is named, and prints the tables.
#     bench/gate.sh [COMMIT]
# It takes an hour or two a commit; nothing else should run. The program that makes the tables stands beside the repository.
set -eu
top=$(cd "$(dirname "$(readlink -f "$0")")/.." && pwd)
times=$(dirname "$top")/shared/gate/times.py
[ -f "$times" ] || { echo "gate.sh: $times is not here" >&2; exit 1; }
folder=$(mktemp -d)
trap 'rm -rf "$folder"' EXIT
for commit in "$@" HEAD; do
  git clone -q "$top" "$folder/clone"
  git -C "$folder/clone" checkout -q "$(git -C "$top" rev-parse "$commit")"
  (cd "$folder/clone" && python3 "$times" --out "$folder/table" -- rt ci --anew >"$folder/log" 2>&1) || tail -n 20 "$folder/log"
  echo "the gate of $(git -C "$top" log -1 --format='%h, %s' "$commit"):"
  cat "$folder/table"
  rm -rf "$folder/clone"
done
