#!/bin/sh
# Times the syncs of 1, 8 and 32 tills through `hub/gateway.py` (`gateway.py`), and beside them the disk's own limit: commits of a row and an entry of a log through SQLite
# from C, as the hub makes one a push (`sql_speed.c`). It isn't in `.ci/run`. Usage: bench/gateway.sh PROGRAM [FOLDER [SECONDS]]
# The files are made in the folder, which lies on the disk that is asked about.
set -eu
bench="$(cd "$(dirname "$0")" && pwd)"
program="$(readlink -f "${1:?usage: bench/gateway.sh PROGRAM [FOLDER [SECONDS]]}")"
. "$bench/common.sh"
need_sqlite || { echo "SQLite's library can't be had"; exit 1; }
mkdir -p "$out"
cc -O2 -Wall -Wextra "$bench/sql_speed.c" -o "$out/sql_speed" -lsqlite3
print_machine_and_sqlite
folder="$(mktemp -d "${2:-$out}/gateway.XXXXXX")"
trap 'rm -rf "$folder"' EXIT
python3 -B "$bench/gateway.py" "$program" "$folder" "${3:-10}"
"$out/sql_speed" WAL "$folder/commits" | awk '$1 == "hub" { printf "commits by C: %.0f a second, %.1f ms each\n", 1e9 / $NF, $NF / 1e6 }'
