#!/bin/sh
# Refuses the built program allocations, one a run, in `sync node`, `sync hub --file` and `sync world` (`refuse_files.py` says how).
# Usage: bench/refuse_files.sh PROGRAM [MOST]
set -eu
bench="$(cd "$(dirname "$0")" && pwd)"
program="$(readlink -f "${1:?usage: bench/refuse_files.sh PROGRAM [MOST]}")"
. "$bench/common.sh"
command -v cc > /dev/null || { echo "no allocation refused: there is no C compiler here"; exit 0; }
command -v python3 > /dev/null || { echo "no allocation refused: there is no python3 here"; exit 0; }
mkdir -p "$out"
cc -O2 -Wall -Wextra -shared -fPIC "$bench/refuse_memory.c" -o "$out/refuse_memory.so" -ldl
folder="$(mktemp -d)"
trap 'rm -rf "$folder"' EXIT
python3 "$bench/refuse_files.py" "$program" "$out/refuse_memory.so" "$folder" "${2:-240}"
