#!/bin/sh
# Times the proved library and SQLite's changegroup taking the same changesets together, 100 of 100 changes, 100 of 1,000 and
# 1,000 of 1,000, and both taking one changeset back, in one run, and fails where they differ. Each takes its turn in a process of its own,
# since what a call costs goes with the memory that was given back before it: the ratios are those of a call that follows others, and of
# the first call of a process, which pays for fresh pages. Usage: bench/combine.sh [TURNS [tables|hot]]
# With `tables` it times changesets that insert a row into each of many tables instead: of as many groups over 999, 100 and 10 tables,
# and of twice and four times as many over 999. With `hot` it times 4,096 changesets of one change each, of 1,000 rows in turn.
# The library is built where the environment's `library` names none.
set -eu
bench="$(cd "$(dirname "$0")" && pwd)"
. "$bench/common.sh"
turns="${1:-5}"
cases="${2:-}"

need_sqlite || { echo "SQLite's library with its session extension can't be had here" >&2; exit 1; }
build_library
build_capture
build_program combine
print_machine_and_sqlite
echo "nanoseconds a change, the least of $turns turns: the library / SQLite = ratio (ratios of the middle half of the turns)"

theirs() { "$out/combine" time sqlite "$work" "$rounds" "$file"; }
ours() { "$out/combine" time ours "$work" "$rounds" "$file"; }

# Times a work over a file, by so many rounds a turn, and says in words what it is. What a byte costs each goes into the file's costs.
time_case() {
    words="$1"
    work="$2"
    rounds="$3"
    file="$4"
    changes="$("$out/combine" check "$work" "$file")"
    take_turns "$turns" "$out/combine_turns"
    later="$(turn_ratios "$out/combine_turns" 2 4)"
    first="$(turn_ratios "$out/combine_turns" 1 3)"
    awk -v words="$words" -v changes="$changes" -v bytes="$(wc -c < "$file")" -v later="$later" -v first="$first" -v costs="$file.costs" '
        function ratio(ours, theirs, middle) { return sprintf("%.0f / %.0f = %.2f (%s)", ours / changes, theirs / changes, ours / theirs, middle) }
        { for (column = 1; column <= 4; column++) if (NR == 1 || $column < least[column]) least[column] = $column }
        END {
            printf "%s, %d changes, %d bytes: %s; first calls %s\n", words, changes, bytes, ratio(least[4], least[2], later), ratio(least[3], least[1], first)
            print least[4] / bytes, least[2] / bytes > costs
        }' "$out/combine_turns"
}

# Times so many changesets that insert a row into each of so many tables.
time_tables() {
    "$out/sqlite_capture" tables "$1" "$2" "$out/tables"
    time_case "$1 changesets of a row in each of $2 tables taken together" together 1 "$out/tables"
}

if [ "$cases" = tables ]; then
    time_tables 9990 10
    time_tables 999 100
    time_tables 100 999
    time_tables 200 999
    time_tables 400 999
    exit 0
fi

if [ "$cases" = hot ]; then
    "$out/sqlite_capture" hot 4096 1000 "$out/hot"
    time_case "4,096 changesets of one change each taken together" together 6 "$out/hot"
    exit 0
fi

"$out/sqlite_capture" overlapping 100 100 "$out/small"
"$out/sqlite_capture" overlapping 100 1000 "$out/middle"
"$out/sqlite_capture" overlapping 1000 1000 "$out/large"
"$out/sqlite_capture" changes 10000 "$out/10000.changeset"
time_case "100 changesets taken together" together 20 "$out/small"
time_case "100 changesets of 1,000 changes taken together" together 6 "$out/middle"
time_case "1,000 changesets taken together" together 3 "$out/large"
paste "$out/small.costs" "$out/large.costs" | awk '{
    printf "from the small to the large, the cost of a byte grows %.2f times in this library, %.2f times in SQLite\n", $3 / $1, $4 / $2 }'
time_case "one changeset taken back" back 20 "$out/10000.changeset"
