#!/usr/bin/env bash
# Checks the library cs_embed from C and from Python (check_embed.c, check_embed.py): a replica and a hub over the bytes of files, conflicts, refusals by name, too
# little room, want of memory. It needs a C compiler; from Python it is called where there is python3 with its sqlite3.
# Usage: bench/check_embed.sh [LIBRARY [SYNC]]
# LIBRARY is libcs_embed.a as `rt lib` leaves it (crates/cs_embed/out/libcs_embed.a); where none is given, it is built.
set -eu
bench="$(cd "$(dirname "$0")" && pwd)"
. "$bench/common.sh"
library="${1:-}"
program="${2:+$(readlink -f "$2")}"
mkdir -p "$out/embed"
build_library cs_embed
cc -O2 -Wall -Wextra -Wl,--wrap=malloc,--wrap=realloc,--wrap=free "$bench/check_embed.c" "$library" "$(system_library)" "$(heap_library)" \
    -o "$out/check_embed"
timeout 600 "$out/check_embed" "$out/embed"
python3 -c 'import ctypes, sqlite3' 2> /dev/null || { echo "it isn't called from Python: there is no python3 with its sqlite3 here"; exit 0; }
cc -shared -o "$out/libcs_embed.so" -Wl,--whole-archive "$library" -Wl,--no-whole-archive "$(system_library)" "$(heap_library)"
timeout 600 python3 -B "$bench/check_embed.py" "$out/libcs_embed.so" "$out/embed" ${program:+"$program"}
