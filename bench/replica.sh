#!/bin/sh
# Runs a replica by the library, and SQLite's way of the same: apply_v2 of the remote changeset onto the local rows, and the local
# changeset rebased over the blob that this leaves.
# Usage: bench/replica.sh
# Over many drawn cases (rows, local edits, in some of them a push under way, and the changes of the log's next entry) it fails
# unless both meet the same conflicts with the same rows behind them, the replica has the rows that SQLite leaves locally, and what
# it pushes then, as well as what SQLite rebased, is applied by SQLite to the remote rows without a conflict and makes of them the
# same rows. Where SQLite's library can't be had, it says so and ends well.
set -eu
bench="$(cd "$(dirname "$0")" && pwd)"
cases=2000
. "$bench/common.sh"

if ! need_sqlite; then
    echo "replicas aren't checked against SQLite: its library with the session extension can't be had here"
    exit 0
fi
cc -O2 -Wall -Wextra $sqlite_flags "$bench/replica.c" -o "$out/sqlite_replica" -lsqlite3

need_runner

"$out/sqlite_replica" cases "$cases" "$out/replica_cases"
timeout 300 "$runner" replica < "$out/replica_cases" > "$out/replica_told"
"$out/sqlite_replica" compare "$cases" "$out/replica_told" || {
    echo "the library's replica and SQLite go different ways: the cases are in $out/replica_cases, what was told in $out/replica_told" >&2
    exit 1
}
echo "replicas and SQLite leave the same rows on both sides"
