#!/bin/sh
# Times a replica that was away for thousands of pushes and catches up: what all entries do together, told at once and taken in one commit, beside
# pulls of a hundred entries each, which are taken one by one. It prints the bytes of the answers, and the time of the hub in memory and of the
# replica in a file, for a log of 4,096 entries of ten changes over 1,000 rows, and one of 100,000 entries of one change over 10,000 rows. Then it times
# the consolidation of 4,096 changesets of one change each, by the C library, beside SQLite's changegroup (`combine.sh TURNS hot`). It isn't in
# `.ci/run`. Usage: bench/catch.sh PROGRAM [FOLDER [TURNS]]
# The replica's file is made in the folder, which lies on the disk that is asked about. TURNS 0 leaves out the consolidation.
set -eu
bench="$(cd "$(dirname "$0")" && pwd)"
. "$bench/common.sh"
program="$(readlink -f "${1:?usage: bench/catch.sh PROGRAM [FOLDER [TURNS]]}")"
mkdir -p "$out"
folder="$(mktemp -d "${2:-$out}/catch.XXXXXX")"
trap 'rm -rf "$folder"' EXIT
turns="${3:-5}"
print_machine
python3 "$bench/catch.py" "$program" "$folder" 4096 10 1000 20
python3 "$bench/catch.py" "$program" "$folder" 100000 1 10000 20
[ "$turns" -eq 0 ] || "$bench/combine.sh" "$turns" hot
