#!/bin/sh
# Times a hub whose log gets long, in memory and on a file: pushes of one row and pulls of ten entries at each length, with how the last compares with
# the first; the memory that an entry takes; and how long the file takes to open, with the engine's own opening apart, beside C that reads the same
# rows and entries through SQLite and sums their bytes (`sql_speed.c`). Pushes onto a file are synced one by one, some six thousand a second. It isn't in `.ci/run`.
# Usage: bench/long_log.sh PROGRAM [FOLDER [LENGTH ..]]
# The lengths are 1,000, 10,000, 100,000 and 1,000,000 where none is given; the last is that of the files, and a tenth of it. They are made in the
# folder, which lies on the disk that is asked about.
set -eu
bench="$(cd "$(dirname "$0")" && pwd)"
. "$bench/common.sh"
program="$(readlink -f "${1:?usage: bench/long_log.sh PROGRAM [FOLDER [LENGTH ..]]}")"
mkdir -p "$out"
folder="$(mktemp -d "${2:-$out}/long_log.XXXXXX")"
trap 'rm -rf "$folder"' EXIT
shift
[ $# -eq 0 ] || shift
[ $# -gt 0 ] || set -- 1000 10000 100000 1000000
print_machine
echo "in memory:"
python3 "$bench/long_log.py" "$program" 2 "$@"
shift $(($# - 1))
python3 "$bench/long_log.py" "$program" 40 "$1" | tail -n 1
need_sqlite && need_shell || { echo "SQLite can't be had: no file is opened"; exit 0; }
cc -O2 -Wall -Wextra "$bench/sql_speed.c" -o "$out/sql_speed" -lsqlite3

# Milliseconds of a hub on a file, with nothing asked; the least of three.
opens() {
    least=
    for turn in 1 2 3; do
        start="$(date +%s%N)"
        "$program" hub --file "$1" t1:10 < /dev/null > /dev/null 2>&1 || true
        took="$((($(date +%s%N) - start) / 1000000))"
        [ -n "$least" ] && [ "$least" -le "$took" ] || least="$took"
    done
    echo "$least"
}

# A file of so many entries is filled, timed, and opened; so is it with a table more, which is refused behind the engine's own opening.
for count in $(($1 / 10)) "$1"; do
    echo "on a file:"
    python3 "$bench/long_log.py" "$program" 2 $((count / 1000)) $((count / 100)) $((count / 10)) "$count" --file "$folder/hub"
    whole="$(opens "$folder/hub")"
    "$out/sql_speed" sum "$folder/hub" > /dev/null
    "$out/sql_speed" sum "$folder/hub"
    sqlite3 "$folder/hub" 'CREATE TABLE other (x)'
    engine="$(opens "$folder/hub")"
    echo "$count entries: opened in $whole ms, of which the engine's own opening takes $engine"
    rm -f "$folder"/hub*
done
