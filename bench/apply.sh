#!/bin/sh
# Applies changesets by the library and by SQLite's sqlite3changeset_apply_v2, onto the same rows, with the same answers.
# Usage: bench/apply.sh [TURNS]
# Over many drawn cases (tables with one and several key columns, texts, blobs, NULLs; a table that isn't there; a key that
# comes twice) it fails unless both meet the same conflicts in the same order, with the same rows behind them, end alike, and
# leave the same rows. With TURNS it also times both, by so many turns of a process each, and prints the ratios: of a call that
# follows others, and of the first call of a process, which pays for fresh pages of memory. Each call has rows of its own, which
# are there before the first and stay to the end, as in a program that keeps its store. SQLite reads the changeset while it
# applies it; the library reads it before, so that the ratio is printed with that too. Where SQLite's library can't be had, it
# says so and ends well.
set -eu
bench="$(cd "$(dirname "$0")" && pwd)"
turns="${1:-}"
cases=3000
. "$bench/common.sh"

if ! need_sqlite; then
    echo "applying isn't checked against SQLite: its library with the session extension can't be had here"
    exit 0
fi
cc -O2 -Wall -Wextra $sqlite_flags "$bench/apply.c" -o "$out/sqlite_apply" -lsqlite3

need_runner

"$out/sqlite_apply" cases "$cases" "$out/apply_cases" "$out/apply_expected"
timeout 300 "$runner" apply < "$out/apply_cases" > "$out/apply_told"
cmp "$out/apply_expected" "$out/apply_told" || {
    echo "the library and SQLite apply a changeset in different ways: compare $out/apply_expected with $out/apply_told" >&2
    exit 1
}
echo "all applied alike by the library and by SQLite"

[ -n "$turns" ] || exit 0
print_machine_and_sqlite
echo "nanoseconds a change, the least of $turns turns: the library / SQLite = ratio (ratios of the middle half of the turns)"

theirs() { "$out/sqlite_apply" time "$rounds" "$count" "$every" "$out/apply_case"; }
ours() { "$runner" apply "$rounds" < "$out/apply_case"; }

for every in 0 10; do
    for count in 1000 10000 100000 1000000; do
        rounds=$((count < 100000 ? 200000 / count : 3))
        take_turns "$turns" "$out/apply_turns"
        later="$(turn_ratios "$out/apply_turns" 2 6)"
        first="$(turn_ratios "$out/apply_turns" 1 5)"
        awk -v count="$count" -v later="$later" -v first="$first" '
            function ratio(ours, theirs, middle) { return sprintf("%.0f / %.0f = %.2f (%s)", ours / count, theirs / count, ours / theirs, middle) }
            $7 != $3 { print "WRONG: " $7 " conflicts, not " $3; exit 1 }
            { for (column = 1; column <= 6; column++) if (NR == 1 || $column < least[column]) least[column] = $column }
            { asked = $3 }
            END {
                printf "%d changes onto as many rows, %d conflicts: %s, with reading %.0f, %.2f; first calls %s\n", count, asked,
                    ratio(least[6], least[2], later), (least[4] + least[6]) / count, (least[4] + least[6]) / least[2],
                    ratio(least[5], least[1], first)
            }' "$out/apply_turns"
    done
done
