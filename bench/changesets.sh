#!/bin/sh
# Times the proved library, SQLite's iterator and a plain Rust decoder over the same changesets, in one run, and fails
# where bytes differ. Usage: bench/changesets.sh [ROUNDS]
set -eu
bench="$(cd "$(dirname "$0")" && pwd)"
. "$bench/common.sh"
rounds="${1:-7}"

need_sqlite || { echo "SQLite's library with its session extension can't be had here" >&2; exit 1; }
build_library
build_capture
rustc --edition 2021 -O --crate-type staticlib "$bench/decode_plain.rs" -o "$out/libdecode_plain.a"
build_program decode "$out/libdecode_plain.a"
print_machine_and_sqlite

for count in 1000 10000 100000; do
    "$out/sqlite_capture" changes "$count" "$out/$count.changeset"
done
"$out/decode" "$rounds" "$out/1000.changeset" "$out/10000.changeset" "$out/100000.changeset"
