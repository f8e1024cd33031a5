#!/bin/sh
# Rebases local changesets by the library and by SQLite's sqlite3rebaser, each over the blob that its own applying of the remote
# changeset leaves.
# Usage: bench/rebase.sh [TURNS]
# Over many drawn cases (rows, a local and a remote changeset that were made to them, answers to their conflicts) it looks at the
# rows on both ways: the local rows with the remote changeset applied, and the remote rows with the rebased local changeset
# applied. It fails unless the library and SQLite leave the same rows on either way, and the library's ways lead to the same
# rows without a conflict wherever each answer was lawful: OMIT unless the remote UPDATE modifies a column that the local UPDATE
# doesn't, REPLACE wherever there is a row. It prints where ways lead to different rows, by what both sides did. With TURNS it
# also times both, by so many turns, and prints the ratios. Where SQLite's library can't be had, it says so and ends well.
set -eu
bench="$(cd "$(dirname "$0")" && pwd)"
turns="${1:-}"
cases=2000
. "$bench/common.sh"

if ! need_sqlite; then
    echo "rebasing isn't checked against SQLite: its library with the session extension can't be had here"
    exit 0
fi
cc -O2 -Wall -Wextra $sqlite_flags "$bench/rebase.c" -o "$out/sqlite_rebase" -lsqlite3

need_runner

"$out/sqlite_rebase" cases "$cases" "$out/rebase_cases" "$out/rebase_expected"
timeout 300 "$runner" rebase < "$out/rebase_cases" > "$out/rebase_told"
awk -f "$bench/rebase.awk" "$out/rebase_expected" "$out/rebase_told" || {
    echo "rebasing is wrong: compare $out/rebase_expected with $out/rebase_told" >&2
    exit 1
}
echo "rebased local changesets leave the same rows by the library and by SQLite"

[ -n "$turns" ] || exit 0
print_machine_and_sqlite
echo "nanoseconds a local change and entry, the least of $turns turns of 50 rounds: the library / SQLite = ratio (ratios of the middle half"
echo "of the turns; the share of reading the local changeset and finding the order of its keys)"

theirs() { "$out/sqlite_rebase" time 50 "$local" "$apart" "$from" "$entries" "$out/rebase_case"; }
ours() { "$runner" rebase 50 < "$out/rebase_case"; }

# Times so many local changes, each at a key so far from the last one's, over so many entries from a key on.
time_case() {
    local="$1"
    apart="$2"
    from="$3"
    entries="$4"
    take_turns "$turns" "$out/rebase_turns"
    ratios="$(turn_ratios "$out/rebase_turns" 1 3)"
    awk -v local="$local" -v entries="$entries" -v words="$5" -v ratios="$ratios" '
        $5 != $2 { print "WRONG: " $5 " changes are left, not " $2; exit 1 }
        NR == 1 || $1 < theirs { theirs = $1 }
        NR == 1 || $3 < ours { ours = $3; share = $4 / $3 }
        END {
            both = local + entries
            printf "%d local changes over %d entries, %s: %.0f / %.0f = %.2f (%s; %.0f%%)\n", local, entries, words, ours / both,
                theirs / both, ours / theirs, ratios, 100 * share
        }' "$out/rebase_turns"
}
time_case 10000 1 0 10000 "all on the same keys"
time_case 10000 1 9000 10000 "a tenth of them on the same keys"
time_case 1000 100 0 100000 "each at the key of an entry"
