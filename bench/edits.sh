#!/bin/sh
# Times 100,000 edits of single rows over 100,000 rows in memory, each in a commit of its own: by `cs_pending` over the store in
# memory, with the pending change of each, and by SQLite with a session that captures them; and how the last edits' cost compares
# with the first ones'. It isn't in `.ci/run`.
# Usage: bench/edits.sh
set -eu
bench="$(cd "$(dirname "$0")" && pwd)"
. "$bench/common.sh"
need_sqlite || { echo "SQLite's library can't be had"; exit 1; }
build_rattle edits_bench cs_store cs_map_store cs_pending cs_value
cc -O2 -Wall -Wextra $sqlite_flags "$bench/edits.c" -o "$out/edits" -lsqlite3
print_machine_and_sqlite
: > "$out/edits_times"
: > "$out/edits_sqlite_times"
for _ in 1 2 3; do
    "$out/edits_bench" >> "$out/edits_times"
    "$out/edits" >> "$out/edits_sqlite_times"
done
! grep WRONG "$out/edits_times" || exit 1
awk '
    FNR == NR { if (!($1 in mine) || $2 < mine[$1]) mine[$1] = $2; next }
    { if (!($1 in theirs) || $2 < theirs[$1]) theirs[$1] = $2 }
    END {
        split("first all last", kinds, " ")
        print "nanoseconds an edit, best of 3: the library / SQLite = ratio"
        for (k = 1; k <= 3; k++)
            printf "%s: %d / %d = %.2f\n", kinds[k], mine[kinds[k]], theirs[kinds[k]], mine[kinds[k]] / theirs[kinds[k]]
        printf "the last 10,000 edits by the first: %.2f\n", mine["last"] / mine["first"]
    }' "$out/edits_times" "$out/edits_sqlite_times"
