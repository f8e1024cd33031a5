#!/bin/sh
# Stops the built program by SIGKILL at drawn moments, in `sync hub --file` and `sync node`, and at each call that writes where a table gets
# a column, and looks at what the files hold then (`stops.py` says how). The files of a world that fails are kept beside the output.
# Usage: bench/stops.sh PROGRAM [ROUNDS] [SEED]
set -eu
bench="$(cd "$(dirname "$0")" && pwd)"
program="$(readlink -f "${1:?usage: bench/stops.sh PROGRAM [ROUNDS] [SEED]}")"
. "$bench/common.sh"
command -v python3 > /dev/null || { echo "nothing is stopped: there is no python3 here"; exit 0; }
mkdir -p "$out"
writes=""
if command -v cc > /dev/null; then
    cc -O2 -Wall -Wextra -shared -fPIC "$bench/refuse_writes.c" -o "$out/refuse_writes.so" -ldl
    writes="$out/refuse_writes.so"
else
    echo "no stop at each write: there is no C compiler here"
fi
BENCH_KEPT="$out/stops" exec python3 "$bench/stops.py" "$program" "${2:-400}" "${3:-1}" ${writes:+"$writes"}
