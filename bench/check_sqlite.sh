#!/bin/sh
# Checks the library against changesets that SQLite captured: it reads each, counts the changes that SQLite's iterator
# counts, and writes the same bytes again; it takes sequences of them together, and takes them back, as SQLite's
# changegroup does; what it rebases and writes for SQLite, SQLite applies; and the program `sync`, where its path is given,
# shows each, and takes together and rebases the same ones, also for SQLite.
# Usage: bench/check_sqlite.sh [LIBRARY [SYNC]]
# LIBRARY is libcs_ffi.a as `rt lib` leaves it (crates/cs_ffi/out/libcs_ffi.a); where none is given, it is built. Where
# SQLite's library can't be had, it says so and ends well.
set -eu
bench="$(cd "$(dirname "$0")" && pwd)"
library="${1:-}"
sync="${2:-}"
. "$bench/common.sh"

if ! need_sqlite; then
    echo "not checked against SQLite: its library with the session extension can't be had here"
    exit 0
fi
build_library
build_capture
build_program check
build_program check_combine
build_program check_rebase

mkdir -p "$out/cases"
"$out/sqlite_capture" cases "$out/cases"
"$out/sqlite_capture" changes 1000 "$out/cases/changes.changeset"
timeout 300 "$out/check" "$out"/cases/*.changeset

rm -rf "$out/sequences"
mkdir -p "$out/sequences"
timeout 300 "$out/check_combine" "$out/sequences"
rm -rf "$out/rebased"
mkdir -p "$out/rebased"
timeout 300 "$out/check_rebase" "$out/rebased"

[ -n "$sync" ] || exit 0
for file in "$out"/cases/*.changeset; do
    { od -An -v -tx1 "$file" | tr -d ' \n'; echo; } > "$out/line"
    timeout 20 "$sync" show changeset < "$out/line" > "$out/shown" || {
        echo "sync show changeset refuses $file" >&2
        exit 1
    }
done
echo "sync show changeset accepts each"

# Runs the program over lines, and compares what it writes.
write_and_compare() {
    local lines="$1" wanted="$2"
    shift 2
    timeout 20 "$sync" "$@" < "$lines" > "$out/written" && cmp "$out/written" "$wanted" || {
        echo "sync $*: writes something else of $lines than the library" >&2
        exit 1
    }
}

for lines in "$out"/sequences/*.lines; do
    write_and_compare "$lines" "${lines%.lines}.combined" combine
    write_and_compare "$lines" "${lines%.lines}.for_sqlite" combine --sqlite
done
for lines in "$out"/rebased/*.lines; do
    write_and_compare "$lines" "${lines%.lines}.rebased" rebase --sqlite
done
echo "sync combine and sync rebase, with --sqlite and without, write what the library writes"
