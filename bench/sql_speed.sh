#!/bin/sh
# Times a store in a file beside the same statements through SQLite's library from C, in one run, each on a file of its own in one folder, with
# full syncs: 10,000 commits of a row and a pending change, 10,000 of a row and an entry of the log, by C with WAL and with the rollback journal;
# 10,000 reads of a row; and a replica with 1,000,000 rows that is opened, beside reading these rows by C. With PROGRAM, the built program
# `sync`, also how long a hub on a file takes for 4,096 pushes, and a second run of it for a pull of 4,000 entries. It isn't in `.ci/run`.
# Usage: bench/sql_speed.sh [FOLDER [PROGRAM]]
# The files are made in the folder, which lies on the disk that is asked about.
set -eu
bench="$(cd "$(dirname "$0")" && pwd)"
. "$bench/common.sh"
need_sqlite || { echo "SQLite's library can't be had"; exit 1; }
mkdir -p "$out"
[ -x "$out/sql_bench" ] && [ -n "${SQL_BENCH_BUILT:-}" ] || build_rattle sql_bench cs_store cs_replica cs_sql cs_value sqlite_disk
cc -O2 -Wall -Wextra "$bench/sql_speed.c" -o "$out/sql_speed" -lsqlite3
print_machine_and_sqlite
folder="$(mktemp -d "${1:-$out}/sql_speed.XXXXXX")"
trap 'rm -rf "$folder"' EXIT
: > "$out/sql_times"
for turn in 1 2 3; do
    "$out/sql_bench" commits "$folder/mine$turn" | sed 's/^/mine /' >> "$out/sql_times"
    "$out/sql_speed" WAL "$folder/wal$turn" | sed 's/^/wal /' >> "$out/sql_times"
    "$out/sql_speed" DELETE "$folder/journal$turn" | sed 's/^/journal /' >> "$out/sql_times"
done
"$out/sql_speed" fill "$folder/many"
for turn in 1 2 3; do
    "$out/sql_bench" open "$folder/many" | sed 's/^/mine /' >> "$out/sql_times"
    "$out/sql_speed" read "$folder/many" | sed 's/^/wal /' >> "$out/sql_times"
done
! grep WRONG "$out/sql_times" || exit 1
awk '
    { side = $1 " " $2; if (!(side in best) || $3 < best[side]) best[side] = $3 }
    function against(what, other, theirs) {
        printf "%s: %d / %d = %.2f\n", what " beside " other, best["mine " what], theirs, best["mine " what] / theirs
    }
    END {
        print "nanoseconds of one, best of 3: the store / SQLite from C = ratio"
        against("replica", "WAL", best["wal replica"])
        against("replica", "the rollback journal", best["journal replica"])
        against("hub", "WAL", best["wal hub"])
        against("hub", "the rollback journal", best["journal hub"])
        against("get", "C", best["wal get"])
        against("open", "reading by C, 1,000,000 rows", best["wal read"])
    }' "$out/sql_times"

[ -n "${2:-}" ] || exit 0
python3 "$bench/measure.py" input "$out/hub_requests"
head -n 4096 "$out/hub_requests" > "$out/hub_pushes"
echo 02000000000000000000000fa0 > "$out/hub_pull"
for requests in hub_pushes hub_pull; do
    start="$(date +%s%N)"
    "$2" hub --file "$folder/hub" t1:10 < "$out/$requests" > "$out/hub_answers"
    end="$(date +%s%N)"
    [ "$(wc -l < "$out/hub_answers")" -eq "$(wc -l < "$out/$requests")" ] || { echo "WRONG: fewer answers than requests"; exit 1; }
    echo "$requests, $(wc -l < "$out/$requests") of them on a file: $(((end - start) / 1000000)) ms in all"
done
