#!/bin/sh
# Times entries of 1,000 changes that a replica over 1,000,000 rows in memory takes, with 1,000 and with 100,000 changes pending: a tenth of
# the entry's changes meet a pending one. Beside it SQLite applies the same changes by sqlite3changeset_apply_v2, and rebases as many
# local ones over the blob that this leaves. It also times the opening of such a replica, beside the reading of its rows. It isn't in
# `.ci/run`.
# Usage: bench/takes.sh
set -eu
bench="$(cd "$(dirname "$0")" && pwd)"
. "$bench/common.sh"
need_sqlite || { echo "SQLite's library can't be had"; exit 1; }
build_rattle takes_bench cs_changeset cs_conflict cs_store cs_map_store cs_normal cs_normalising cs_replica cs_value
cc -O2 -Wall -Wextra $sqlite_flags "$bench/takes.c" -o "$out/takes" -lsqlite3
print_machine_and_sqlite
: > "$out/takes_times"
: > "$out/takes_sqlite_times"
for _ in 1 2 3; do
    "$out/takes_bench" >> "$out/takes_times"
    "$out/takes" >> "$out/takes_sqlite_times"
done
! grep WRONG "$out/takes_times" || exit 1
awk '
    { key = $1 " " $2 }
    FNR == NR { if (!(key in mine) || $3 < mine[key]) mine[key] = $3; next }
    { if (!(key in theirs) || $3 < theirs[key]) theirs[key] = $3 }
    function compare_counts(pending) {
        if (mine[pending " asked"] != theirs[pending " asked"] || mine[pending " left"] != theirs[pending " left"]) {
            print "WRONG: other clashes, or other changes are left pending, with " pending " pending"
            exit 1
        }
    }
    function print_takes(pending,    ours, read, sqlite) {
        compare_counts(pending)
        ours = mine[pending " taken"]
        read = mine[pending " read"]
        sqlite = theirs[pending " rebased"]
        printf "%d pending: %.0f / %.0f = %.2f (of which SQLite applies in %.0f); with the reading into normal form %.0f / %.0f = %.2f\n",
            pending, ours, sqlite, ours / sqlite, theirs[pending " applied"], ours + read, sqlite, (ours + read) / sqlite
    }
    END {
        print "microseconds an entry of 1,000 changes, the fastest: taken by the library / applied and rebased by SQLite = ratio"
        for (key in mine) if (key !~ /asked|left|rows/) mine[key] /= 1000
        for (key in theirs) if (key !~ /asked|left/) theirs[key] /= 1000
        print_takes(1000)
        print_takes(100000)
        printf "with 100,000 pending by with 1,000: %.2f\n", mine["100000 taken"] / mine["1000 taken"]
        printf "%d rows, milliseconds: opened / read = %.0f / %.0f = %.2f\n", mine["0 rows"], mine["0 opened"] / 1000,
            mine["0 listed"] / 1000, mine["0 opened"] / mine["0 listed"]
    }' "$out/takes_times" "$out/takes_sqlite_times"
