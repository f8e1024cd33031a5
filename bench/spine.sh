#!/bin/sh
# Times the log that threads share (`cs_spine`), of 4,096, 65,536 and 1,048,576 cells, in one run with a plain list of `OnceLock` (`spine_plain.rs`):
# an entry of one row offered to each cell, seen by a second pass, and read again by it. It isn't in `.ci/run`.
# Usage: bench/spine.sh
set -eu
bench="$(cd "$(dirname "$0")" && pwd)"
. "$bench/common.sh"
mkdir -p "$out"
[ -x "$out/spine_bench" ] && [ -n "${SPINE_BENCH_BUILT:-}" ] || build_rattle spine_bench cs_store cs_spine cs_value
rustc -O --edition 2021 -o "$out/spine_plain" "$bench/spine_plain.rs"
print_machine
echo "nanoseconds an entry, the least of 5: the spine / the plain list = ratio"
for cells in 4096 65536 1048576; do
    : > "$out/spine_times"
    for turn in 1 2 3 4 5; do
        echo "$("$out/spine_bench" "$cells") $("$out/spine_plain" "$cells")" >> "$out/spine_times"
    done
    awk -v cells="$cells" '
        /WRONG/ || $4 != cells || $8 != cells { print "WRONG: " $0; wrong = 1; exit }
        { for (at = 1; at <= 8; at++) if (NR == 1 || $at < least[at]) least[at] = $at }
        END {
            if (wrong) exit 1
            split("offered seen read", what, " ")
            line = cells " cells:"
            for (at = 1; at <= 3; at++) line = line sprintf("  %s %.1f / %.1f = %.2f", what[at], least[at] / cells, least[at + 4] / cells, least[at] / least[at + 4])
            print line
        }' "$out/spine_times"
done
