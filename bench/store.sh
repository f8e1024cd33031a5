#!/bin/sh
# Times commits of one row to the store in memory (`MapStore`) where it holds 1,000, 10,000, 100,000 and 1,000,000 rows, in
# one run with plain single changes of std's `BTreeMap`, and fails where a commit's cost grows faster than the logarithm
# allows: by more than 20 from 1,000 rows to 1,000,000, of which a factor of 2 is the logarithm's and the rest the caches'.
# Usage: bench/store.sh
set -eu
bench="$(cd "$(dirname "$0")" && pwd)"
. "$bench/common.sh"
build_rattle store_bench cs_store cs_map_store
rustc -O --edition 2021 -o "$out/store_plain" "$bench/store_plain.rs"
print_machine
"$out/store_bench" > "$out/store_times"
"$out/store_plain" > "$out/store_plain_times"
! grep WRONG "$out/store_times" || exit 1
awk '
    { key = $1 " " $2 }
    FNR == NR { if (!(key in store) || $3 < store[key]) store[key] = $3; next }
    { if (!(key in plain) || $3 < plain[key]) plain[key] = $3 }
    END {
        split("1000 10000 100000 1000000", sizes, " ")
        split("new replaced removed got listed", kinds, " ")
        print "nanoseconds a row, best of 3: the store / plain map = ratio; making a commit'"'"'s batch takes " store["1000 batch"]
        for (k = 1; k <= 5; k++) {
            line = kinds[k] ":"
            for (s = 1; s <= 4; s++) {
                key = sizes[s] " " kinds[k]
                line = line sprintf("  %d rows %d / %d = %.2f", sizes[s], store[key], plain[key], store[key] / plain[key])
            }
            print line
        }
        for (k = 1; k <= 3; k++) {
            mine = store["1000000 " kinds[k]] / store["1000 " kinds[k]]
            printf "%s, from 1,000 rows to 1,000,000: the store by %.1f, the plain map by %.1f\n", kinds[k], mine, plain["1000000 " kinds[k]] / plain["1000 " kinds[k]]
            if (mine > 20) wrong = 1
        }
        exit wrong
    }' "$out/store_times" "$out/store_plain_times"
