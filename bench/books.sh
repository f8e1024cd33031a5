#!/bin/sh
# Times requests by 1, 2, 4 and 8 threads that each have a book of their own on one row of cells, beside the same requests of one hub under
# a lock, in one run: 4,000 pushes of ten rows each, and 200,000 pulls of ten entries each of a log of 4,000. It isn't in `.ci/run`.
# Usage: bench/books.sh
set -eu
bench="$(cd "$(dirname "$0")" && pwd)"
. "$bench/common.sh"
mkdir -p "$out"
[ -x "$out/books_bench" ] && [ -n "${BOOKS_BENCH_BUILT:-}" ] || build_rattle books_bench cs_nodes cs_hub cs_map_store cs_spine cs_value
print_machine
: > "$out/books_times"
for turn in 1 2 3; do
    for threads in 1 2 4 8; do
        for what in pushes pulls; do
            "$out/books_bench" books "$what" "$threads" | sed "s/^/$what /" >> "$out/books_times"
            "$out/books_bench" lock "$what" "$threads" | sed "s/^/$what /" >> "$out/books_times"
        done
    done
done
! grep WRONG "$out/books_times" || exit 1
awk '
    { side = $1 " " $2 " " $3; if (!(side in best) || $4 < best[side]) best[side] = $4 }
    END {
        print "requests a second, best of 3: books on one row of cells / one hub under a lock = ratio of their times"
        count = split("1 2 4 8", threads, " ")
        for (at = 1; at <= count; at++) {
            for (which = 1; which <= 2; which++) {
                what = which == 1 ? "pushes" : "pulls"
                books = best[what " books " threads[at]]
                lock = best[what " lock " threads[at]]
                printf "%s, threads: %d: %d / %d = %.2f\n", what, threads[at], 1e9 / books, 1e9 / lock, books / lock
            }
        }
    }' "$out/books_times"
