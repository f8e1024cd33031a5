#!/bin/sh
# Times a changeset of some 100 MB that comes in pieces of 1, 64 and 65,536 bytes beside the same bytes read at once, in one run. It isn't in
# `.ci/run`. Usage: bench/feed.sh [ROUNDS]
set -eu
bench="$(cd "$(dirname "$0")" && pwd)"
. "$bench/common.sh"
rounds="${1:-5}"
mkdir -p "$out"
build_rattle feed_bench cs_changeset cs_feed
print_machine
: > "$out/feed_times"
for round in $(seq "$rounds"); do
    "$out/feed_bench" 0 1 64 65536 >> "$out/feed_times"
done
! grep WRONG "$out/feed_times" || exit 1
awk -v rounds="$rounds" '
    { if (!($1 in best) || $2 < best[$1]) best[$1] = $2 }
    END {
        printf "seconds, best of %d: at once %.3f\n", rounds, best[0] / 1e9
        count = split("1 64 65536", sizes, " ")
        for (at = 1; at <= count; at++) {
            size = sizes[at]
            printf "in pieces of %d: %.3f = %.2f times\n", size, best[size] / 1e9, best[size] / best[0]
        }
    }' "$out/feed_times"
