#!/bin/sh
# Times a table that gets columns: one for 1,000,000 rows, at a hub in memory and on a file and at a replica's file, beside SQLite's ALTER
# TABLE ADD COLUMN and an UPDATE that sets it in every row, in one run. Then pushes, pulls and edits of a table that got ten columns, beside
# one that had them from the start (`wider.py` says how). It isn't in `.ci/run`.
# Usage: bench/wider.sh PROGRAM [FOLDER [ROWS [LATER]]]
# The files are made in the folder, which lies on the disk that is asked about.
set -eu
bench="$(cd "$(dirname "$0")" && pwd)"
. "$bench/common.sh"
program="$(readlink -f "${1:?usage: bench/wider.sh PROGRAM [FOLDER [ROWS [LATER]]]}")"
mkdir -p "$out"
folder="$(mktemp -d "${2:-$out}/wider.XXXXXX")"
trap 'rm -rf "$folder"' EXIT
print_machine
python3 "$bench/wider.py" "$program" "$folder" "${3:-1000000}" "${4:-100000}"
